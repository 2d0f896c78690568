"""Whether the checker notices what is wrong.

Enters: nothing. Leaves: a line for each way in which what a run wrote is altered on purpose, and the status 0 where each is told.
Run it as `python3 tests/outside/selfcheck.py`.
"""
import random
import re
import subprocess
import sys
import tempfile
from pathlib import Path

TESTS = Path(__file__).resolve().parent.parent
sys.path.insert(0, str(TESTS))

from outside.captures import Clients, good_change, random_shape
from outside.changes import changed_start
from outside.elsewhere import Elsewhere, Fault, request_of
from outside.files import MODES, CLASSES, joined, read_report, write_capture
from outside.judge import Difference, judged, same_file
from outside.legality import facts_of, write_requires
from outside.replay import Job, Replay
from outside.report import files_of
from outside.target_runs import Heard, follow_many

SEEDS, LINE = 3000, 230
START, ANSWER = re.compile(rb"^s ([0-9]+) ([0-9]+)$", re.M), re.compile(rb"^a ([0-9]+) count ([0-9]+) ", re.M)


class NotHere(Exception):
    """What an alteration wants is not in this run."""


def wanted(found):
    if not found:
        raise NotHere
    return found


def lines_of(files, name):
    return files[name].split(b"\n")[:-1]


def replaced(files, name, lines):
    return {**files, name: joined(lines)}


def pause_rounded_up(files, replay):
    job = replay.job
    for stamp, captured in enumerate(job.calls):
        before = job.before[stamp]
        gap, share = (captured.began, job.connect) if before is None else (captured.began - job.calls[before].ended, job.think)
        if gap * share % 100:
            old, new = (b"\ns %d %d\n" % (stamp, gap * share // 100 + more) for more in (0, 1))
            return {**files, "journal.txt": files["journal.txt"].replace(old, new)}
    raise NotHere


def pause_left_out(files, _):
    line = wanted([match for match in START.finditer(files["journal.txt"]) if match[2] != b"0"])[0]
    return {**files, "journal.txt": files["journal.txt"].replace(line[0] + b"\n", b"s %s 0\n" % line[1], 1)}


def reply_changed(files, _):
    line = wanted(ANSWER.search(files["journal.txt"]))
    changed = b"a %s count %d " % (line[1], int(line[2]) + 1)
    return {**files, "journal.txt": files["journal.txt"].replace(line[0], changed, 1)}


def start_before_required_answer(files, replay):
    lines, mode = lines_of(files, "journal.txt"), replay.job.mode
    for place, (first, second) in enumerate(zip(lines, lines[1:])):
        if first.startswith(b"a ") and second.startswith(b"s "):
            answered, started = int(first.split(b" ")[1]), int(second.split(b" ")[1])
            fact = replay.job.facts[started]
            if mode == "scn" and 0 < replay.job.facts[answered].number <= fact.seen:
                lines[place], lines[place + 1] = second, first
                return replaced(files, "journal.txt", lines)
    raise NotHere


def start_before_own_answer(files, replay):
    """The next call of the same session starts before the answer to the one before it."""
    lines, before = lines_of(files, "journal.txt"), replay.job.before
    for place, (first, second) in enumerate(zip(lines, lines[1:])):
        if first.startswith(b"a ") and second.startswith(b"s ") and before[int(second.split(b" ")[1])] == int(first.split(b" ")[1]):
            lines[place], lines[place + 1] = second, first
            return replaced(files, "journal.txt", lines)
    raise NotHere


def answered_twice(files, _):
    lines = lines_of(files, "journal.txt")
    last = wanted([line for line in lines if line.startswith(b"a ")])[-1]
    return replaced(files, "journal.txt", lines[:-1] + [last, b"end"])


def not_answered(files, _):
    lines = lines_of(files, "journal.txt")
    return replaced(files, "journal.txt", wanted(lines[1:-1]) and lines[:-2] + [b"end"])


def class_swapped(files, _):
    report = read_report(files["report.txt"])
    *place, kind = wanted(report.lines)[0]
    report.lines[0] = (*place, CLASSES[(CLASSES.index(kind) + 1) % len(CLASSES)])
    return {**files, "report.txt": report.write()}


def line_of_report_missing(files, _):
    report = read_report(files["report.txt"])
    wanted(report.lines).pop()
    return {**files, "report.txt": report.write()}


def without_last(name, head):
    """Takes away the last line before `end`, or the last line, of a file with so many lines of head."""
    def alteration(files, _):
        lines = lines_of(files, name) if name in files else []
        end = [b"end"] if lines and lines[-1] == b"end" else []
        body = lines[head:len(lines) - len(end)]
        return replaced(files, name, lines[:head] + wanted(body)[:-1] + end)
    return alteration


def value_of_table_changed(files, _):
    found = wanted(re.search(rb"\[i(\d+)", files["tables.txt"]))
    return {**files, "tables.txt": files["tables.txt"].replace(found[0], b"[i%d" % (int(found[1]) + 1), 1)}


def cause_changed(files, _):
    lines = lines_of(files, "causes.csv")
    cause = wanted(lines[1:])[0]
    lines[1] = cause.replace(b"upgrade", b"TIMING").replace(b"timing", b"upgrade").replace(b"TIMING", b"timing")
    return replaced(files, "causes.csv", lines)


def upgrade_is_called_timing(files, _):
    wanted(b"upgrade" in files["causes.csv"])
    return {**files, "causes.csv": files["causes.csv"].replace(b"upgrade", b"timing", 1)}


def fence_names_one_more(files, replay):
    lines = lines_of(files, "fence.txt") if "fence.txt" in files else []
    known = set(map(int, wanted(lines)[1:-1]))
    other = wanted([stamp for stamp in range(len(replay.job.calls)) if stamp not in known])[0]
    return replaced(files, "fence.txt", [b"fence 1", *(b"%d" % stamp for stamp in sorted({*known, other})), b"end"])


def quotes_left_out(files, _):
    wanted(b'"' in files["report.csv"])
    return {**files, "report.csv": files["report.csv"].replace(b'"', b"")}


def pairs_exchanged(files, _):
    lines = lines_of(files, "maps.csv")
    wanted(lines[2:])
    return replaced(files, "maps.csv", [lines[0], lines[2], lines[1], *lines[3:]])


def without_file(name):
    def alteration(files, _):
        return {each: data for each, data in files.items() if each != wanted(name in files and name)}
    return alteration


def file_too_many(files, _):
    wanted("fence.txt" not in files)
    return {**files, "fence.txt": b"fence 1\nend\n"}


def last_end_missing(files, _):
    return {**files, "report.txt": files["report.txt"].removesuffix(b"end\n")}


ALTERATIONS = {
    "a pause is rounded up": pause_rounded_up, "a pause is left out": pause_left_out, "a reply is changed in the journal": reply_changed,
    "a call starts before its required answer": start_before_required_answer, "a call starts before the one before it is answered":
    start_before_own_answer, "a call is answered twice": answered_twice, "a call is not answered": not_answered,
    "a class is swapped": class_swapped, "the report lacks a call": line_of_report_missing, "a row is missing in tables.txt":
    without_last("tables.txt", 1), "a value is changed in tables.txt": value_of_table_changed, "a cause is changed": cause_changed,
    "an upgrade is called timing": upgrade_is_called_timing, "a cause is missing": without_last("causes.csv", 1),
    "a plain read is missing": without_last("fence.txt", 1), "a call too many is a plain read": fence_names_one_more,
    "quotes are left out in report.csv": quotes_left_out, "report.csv lacks a call": without_last("report.csv", 1),
    "a pair of ids is missing": without_last("maps.csv", 1), "pairs of ids are exchanged": pairs_exchanged,
    "tables.txt is missing": without_file("tables.txt"), "causes.csv is missing": without_file("causes.csv"),
    "fence.txt is missing": without_file("fence.txt"), "there is a file too many": file_too_many, "an end is missing": last_end_missing,
}


def random_job(seed):
    """A job with a little of everything, and the calls of its sessions."""
    chance = random.Random(seed)
    theme = chance.choice(("holds", "draws", ""))
    shape = random_shape(chance, 24, chance.choice((2, 3)), calm=True, theme=theme, likes={"quotients": seed % 2 == 0})
    clients = Clients(chance, shape)
    sessions = clients.record()
    calls = sorted((captured for session in sessions for captured in session), key=lambda captured: captured.stamp)
    target = changed_start(clients.start, good_change(chance, clients.start)) if seed % 2 == 0 else clients.start
    mode = "fence" if seed % 3 == 0 else chance.choice(MODES)
    job = Job(clients.start, target, calls, facts_of(clients.start, calls), len(sessions), mode, chance.choice((33, 100)), 50)
    return job, sessions


def is_told(alteration):
    """How the first run that has what the alteration wants is told, or None. One lane has one order, several are followed."""
    for seed in range(SEEDS):
        job, _ = random_job(seed)
        replay = Replay(job).run_alone()
        files = files_of(replay)
        try:
            altered = alteration(files, replay)
        except NotHere:
            continue
        return told(job, files, altered, 1) and told(job, files, altered, None)
    return None


def told(job, files, altered, lanes):
    judged(job, files, lanes)
    try:
        judged(job, altered, lanes)
    except Difference as difference:
        return str(difference)
    return None


def requires_are_told():
    job, _ = random_job(1)
    right = write_requires(job.facts)
    try:
        same_file("requires.csv", right.replace(b"5,order,5,4", b"5,order,5,3"), right)
    except Difference as difference:
        return str(difference)
    return None


def command_tells():
    """Whether `check_run` ends with 0 on what is right and with 1 on what is not."""
    job, sessions = random_job(5)
    job.mode, job.target = "order", job.start
    files = files_of(Replay(job).run_alone())
    with tempfile.TemporaryDirectory() as folder:
        for name, data in {**write_capture(job.start, sessions), **files}.items():
            (Path(folder) / name).write_bytes(data)
        words = [sys.executable, str(TESTS / "check_run"), folder, folder, "--think", str(job.think), "--connect", str(job.connect)]
        right = subprocess.run(words, capture_output=True)
        (Path(folder) / "report.txt").write_bytes(files["report.txt"].replace(b"gone-error 0", b"gone-error 1"))
        wrong = subprocess.run(words, capture_output=True)
    return wrong.stdout.decode().strip() if (right.returncode, wrong.returncode) == (0, 1) else None


class Told:
    """What a server elsewhere might have heard: each call in its place of the journal."""

    def __init__(self, replay):
        self.came, self.answered, self.requests = {}, {}, {}
        for place, (event, learnt) in enumerate(zip(replay.events, replay.learnt_at)):
            stamp = int(event.split(b" ")[1])
            if event.startswith(b"s "):
                self.came[stamp], self.requests[stamp] = place, request_of(replay.sent(stamp, learnt))
            else:
                self.answered[stamp] = place


def sent_by_another_map(seed):
    """Whether a request with an id that was not replaced is told; None where this run has none."""
    job, _ = random_job(seed)
    replay = Replay(job).run_alone()
    heard = Told(replay)
    follow_many(job, heard, replay)
    for stamp, captured in enumerate(job.calls):
        if captured.call[0] == "sql" and replay.sent(stamp, replay.learnt_at[heard.came[stamp]]) != captured.call:
            heard.requests[stamp] = request_of(captured.call)
            try:
                follow_many(job, heard, replay)
            except Difference as difference:
                return str(difference)
            return ""
    return None


def unreplaced_id_is_told():
    return next((line for seed in range(SEEDS) if (line := sent_by_another_map(seed)) is not None), None)


def call_too_many_is_told():
    job, _ = random_job(1)
    server = Elsewhere(None, random.Random(1))
    server.connections = [None] * len(job.of_session)
    stamps = job.of_session[sorted(job.of_session)[0]]
    server.log = [("came", 0, place, b"") for place in range(len(stamps) + 1)] + [("answered", 0, 0, Fault(b""))]
    server.listener.close()
    try:
        Heard(job, server)
    except Difference as difference:
        return str(difference)
    return None


def main():
    tests = {name: (lambda alteration=alteration: is_told(alteration)) for name, alteration in ALTERATIONS.items()}
    tests["a number is changed in requires.csv"] = requires_are_told
    tests["the command tests/check_run tells a wrong count"] = command_tells
    tests["an id is sent as it was captured"] = unreplaced_id_is_told
    tests["a call too many is sent"] = call_too_many_is_told
    failed = 0
    for name, test in tests.items():
        line = test()
        failed += not line
        print(f"{name}: {line or 'NOT TOLD'}"[:LINE])
    print(f"{len(tests) - failed} passed, {failed} failed")
    return 1 if failed else 0


if __name__ == "__main__":
    sys.exit(main())
