# Names on the standard output the first of a command's words that is wrong, and what would be right there; nothing where it finds none.
# usage: awk -f wrong_word.awk -- WORD ..
BEGIN {
    places["run"] = "CAPTURE OUT"; options["run"] = "--mode --think --connect --remap --change --lanes --target"
    places["prepare"] = "CAPTURE OUT"
    places["serve"] = "CAPTURE START CONNECTIONS"; options["serve"] = "--port"
    places["generate"] = "CALLS OUT"
    places["trial"] = "CALLS"
    places["register"] = "OUT RUN"
    places["runs"] = ""
    places["accept"] = "RUN STAMP CLASS"
    places["compare"] = "RUN RUN"
    places["page"] = "CAPTURE OUT"
    places["show"] = "CAPTURE OUT"; further["show"] = "STAMP"
    modes = "order scn fence object off"
    classes = "new-error gone-error mutated-error rows-modified rows-fetched row-contents images shape"
    most["--think"] = most["--connect"] = 1000
    most["--lanes"] = most["CONNECTIONS"] = 64
    most["--target"] = most["--port"] = 65535
    most["CALLS"] = 10000
    print_unless_empty(wrong_word())
    exit
}
function print_unless_empty(text) { if (text != "") print text }
function wrong_word(    command, count, all, at, word, plain, place, found, names) {
    command = ARGV[1]
    if (!(command in places)) return command ": no command" nearest(command, commands())
    count = split(places[command], names, " ")
    all = split(places[command] " " further[command], names, " ")
    for (at = 2; at < ARGC; at++) {
        word = ARGV[at]
        if (!plain && word == "--") { plain = 1; continue }
        if (!plain && word ~ /^-./) {
            found = wrong_option(command, word, at)
            if (found != "") return found
            if (index(word, "=") == 0) at++
        } else {
            if (++place > all) return word ": one word too many"
            if ((found = wrong_value(names[place], word)) != "") return found
        }
    }
    if (place < count) return names[place + 1] " is missing"
    if (("--target" in said) && ("--change" in said)) return "--change: not beside --target, as that server has the start that it has"
}
# What is wrong with an option, by its word and, where that has no =, the word behind.
function wrong_option(command, word, at,    name, value, cut) {
    cut = index(word, "=")
    name = cut ? substr(word, 1, cut - 1) : word
    if (!member(name, options[command])) return name ": no option of " command nearest(name, options[command])
    if (name in said) return name ": stands twice"
    said[name] = 1
    if (!cut && (at + 1 >= ARGC || ARGV[at + 1] ~ /^-./)) return name ": its value is missing"
    value = cut ? substr(word, cut + 1) : ARGV[at + 1]
    return wrong_value(name, value)
}
# What is wrong with the value of an option or of a place.
function wrong_value(name, value) {
    if (name == "--mode") return member(value, modes) ? "" : name " " value ": it is one of " modes nearest(value, modes)
    if (name == "CLASS") return member(value, classes) ? "" : value ": a class is one of " classes nearest(value, classes)
    if (name == "RUN") return value ~ /^[a-z][a-z0-9_]*$/ && length(value) <= 30 ? "" : value ": the name of a run is a small letter, and up to 29 more small letters, digits or _"
    if (name == "STAMP") return is_number(value) ? "" : value ": a stamp is a number"
    if (name in most) return is_number(value) && length(value) <= 6 && value + 0 <= most[name] && (most[name] == 1000 || value + 0 >= 1) ? "" : (name ~ /^-/ ? name " " : "") value ": a number from " (most[name] == 1000 ? 0 : 1) " to " most[name]
    return length(value) >= 1 && length(value) <= 900 ? "" : name ": a folder or file has 1 to 900 bytes"
}
function is_number(value) { return value ~ /^(0|[1-9][0-9]*)$/ }
function member(word, list) { return index(" " list " ", " " word " ") > 0 && word !~ / / && word != "" }
function commands(    all, command) {
    for (command in places) all = all " " command
    return all
}
# A question for the word of a list that is nearest, where one is near.
function nearest(word, list,    names, count, at, best, least, far) {
    count = split(list, names, " ")
    least = length(word) > 4 ? 3 : 2
    for (at = 1; at <= count; at++) {
        far = distance(word, names[at])
        if (far < least) { least = far; best = names[at] }
    }
    return best == "" ? "" : "; did you mean " best "?"
}
# How many letters are to be added, taken away, changed or exchanged with the next one, so that one word becomes the other.
function distance(one, other,    i, j, cost, row) {
    for (i = 0; i <= length(one); i++) row[i, 0] = i
    for (j = 0; j <= length(other); j++) row[0, j] = j
    for (i = 1; i <= length(one); i++)
        for (j = 1; j <= length(other); j++) {
            cost = substr(one, i, 1) != substr(other, j, 1)
            row[i, j] = least_of(row[i - 1, j] + 1, row[i, j - 1] + 1, row[i - 1, j - 1] + cost)
            if (i > 1 && j > 1 && substr(one, i, 1) == substr(other, j - 1, 1) && substr(one, i - 1, 1) == substr(other, j, 1))
                row[i, j] = least_of(row[i, j], row[i - 2, j - 2] + 1, row[i, j])
        }
    return row[length(one), length(other)]
}
function least_of(a, b, c) { return a < b ? (a < c ? a : c) : (b < c ? b : c) }
