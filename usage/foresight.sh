# What the script `replay` says on the standard error before a command's long work, and behind it. It makes and changes nothing, and refuses
# nothing: what is to be refused the program refuses, in its order, with its line and its status.

# How many bytes a file may have that `run` reads, and all files of a capture together.
file_limit=67108864
capture_limit=268435456

# Sorts the words behind a command: those that are no options into `plain`, and the values of options into `option`.
sort_words() {
    local options=yes word
    plain=() option=()
    shift
    while [ "$#" -gt 0 ]; do
        word=$1
        shift
        case "$options $word" in
            "yes --") options= ;;
            "yes --"*=*) option[${word%%=*}]=${word#*=} ;;
            "yes -"?*)
                option[$word]=${1-}
                [ "$#" -eq 0 ] || shift
                ;;
            *) plain+=("$word") ;;
        esac
    done
}
# The files of a capture of so many sessions.
files_of_capture() {
    local session
    for ((session = 0; session < $1; session++)); do printf 'session-%03d.cap\n' "$session"; done
    echo start.cap
}
# The files that a command writes, by their names in its folder.
written_by() {
    case "$1" in
        prepare) echo requires.csv ;;
        generate) files_of_capture 4 ;;
        serve) files_of_capture "${plain[2]}" ;;
        run)
            printf '%s\n' journal.txt report.txt report.csv maps.csv
            [ -n "${option[--target]-}" ] || printf '%s\n' tables.txt causes.csv
            [ -n "${option[--target]-}${option[--change]-}" ] || [ "${option[--mode]-}" != fence ] || echo fence.txt
            ;;
    esac
}
# The folder that a command writes into.
folder_of() {
    case "$1" in
        run | prepare | generate) echo "${plain[1]}" ;;
        serve) echo "${plain[0]}" ;;
    esac
}
# Why no file can be written into a folder, which may have to be made; nothing where one can.
hindrance_of() {
    local folder=$1
    # (of a link that leads nowhere nothing can be made either)
    while [ ! -e "$folder" ] && [ ! -L "$folder" ]; do folder=$(dirname -- "$folder"); done
    if [ ! -d "$folder" ]; then
        echo "$folder is no folder"
    elif [ ! -w "$folder" ] || [ ! -x "$folder" ]; then
        echo "$folder is a folder that you may not write into"
    elif [ "$(df --output=avail -- "$folder" 2>/dev/null | tail -n 1 | tr -d ' ')" = 0 ]; then
        echo "the device of $folder has no room"
    fi
}
# Says what stands in the way of the files that a command writes. Where nothing does it says nothing.
foretell_files() {
    local folder name hindrance=
    folder=$(folder_of "$1")
    [ -n "$folder" ] || return 0
    hindrance=$(hindrance_of "$folder")
    [ -z "$hindrance" ] || hindrance="$folder can't be written into: $hindrance"
    while [ -z "$hindrance" ] && read -r name; do
        [ ! -d "$folder/$name" ] || hindrance="$folder/$name can't be written: it is a folder"
    done < <(written_by "$1")
    [ -z "$hindrance" ] || printf 'replay: %s\n' "$hindrance" \
        "the command goes on, since other refusals go before this one, but it can't end well; Ctrl-C ends it now"
}
# Whether somebody listens at a port of 127.0.0.1, by the system's tables.
is_taken() {
    cat /proc/net/tcp /proc/net/tcp6 2>/dev/null | awk -v port="$(printf '%04X' "$1")" '
        BEGIN {
            none = "00000000"
            taken["0100007F"]; taken[none]; taken[none none none none]; taken[none none "FFFF0000" "0100007F"]
        }
        $4 == "0A" { split($2, at, ":"); if (at[2] == port && at[1] in taken) found = 1 }
        END { exit !found }'
}
# Says what is wrong with the port that a command is to listen at or to send to.
foretell_port() {
    [ -r /proc/net/tcp ] || return 0
    case "$1" in
        serve) ! is_taken "${option[--port]-7080}" || echo "replay: port ${option[--port]-7080} of 127.0.0.1 is in use: somebody listens there" ;;
        run)
            [ -z "${option[--target]-}" ] || is_taken "${option[--target]}" ||
                echo "replay: nobody listens at port ${option[--target]} of 127.0.0.1, to which the calls are to be sent"
            ;;
    esac
}
# Says before a command's work what will keep it from ending well. The words are those of a command.
foretell() {
    local -a plain
    local -A option
    sort_words "$@"
    foretell_files "$1"
    foretell_port "$1"
}
# Says which files that a service has written are larger than a run takes.
tell_large_files() {
    local name size all=0
    while read -r name; do
        size=$(stat -Lc %s -- "${plain[0]}/$name") || return 0
        all=$((all + size))
        [ "$size" -le "$file_limit" ] ||
            echo "replay: ${plain[0]}/$name has $size bytes: it can't be replayed, since a run takes no file of more than $file_limit"
    done < <(files_of_capture "${plain[2]}")
    [ "$all" -le "$capture_limit" ] ||
        echo "replay: the files of ${plain[0]} have $all bytes: they can't be replayed, since a run takes no more than $capture_limit together"
}
# The moment at which the last call of a capture had ended, in microseconds: of each session that of its last call.
length_of_capture() {
    local sessions name
    sessions=$(tail -n 2 -- "$1/start.cap" | awk '$1 == "sessions" { print $2 }')
    while read -r name; do
        tail -n 2 -- "$1/$name" | awk 'NR == 1 && $1 != "session" { print $3 }'
    done < <(files_of_capture "${sessions:-0}" | grep ^session) | sort -n | tail -n 1
}
# Says how long the clients took when they were captured, and how long a run took that began so many microseconds ago.
tell_times() {
    local length
    length=$(length_of_capture "${plain[0]}")
    awk -v captured="${length:-0}" -v ran="$1" \
        'BEGIN { printf "replay: the capture lasted %.1f s, this run of it %.1f s in all\n", captured / 1000000, ran / 1000000 }'
}
# What is to be known of a status, where the program's line does not say it.
sentences_of() {
    case "$1" in
        7)
            [ -z "${option[--remap]-}" ] || grep '^7-remap ' "$usage/statuses"
            [ -z "${option[--change]-}" ] || grep '^7-change ' "$usage/statuses"
            ;;
        *) grep "^$1 " "$usage/statuses" ;;
    esac
}
# Says behind a command's work, which took so many microseconds and ended with this status, what is to be known of it.
tell_behind() {
    local took=$1 status=$2
    local -a plain
    local -A option
    shift 2
    sort_words "$@"
    case "$1 $status" in
        "serve 0") tell_large_files ;;
        "run "[01]) [ ! -t 2 ] || tell_times "$took" ;;
        *) sentences_of "$status" | sed 's/^[^ ]* /replay: /' ;;
    esac
}
