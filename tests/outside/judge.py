"""Whether what a run wrote is right.

Enters: a job, the files of its folder, its lanes, and whether the server was elsewhere. Leaves: `Difference`, with what a person has to
know, or the replay that the files tell.
"""
from outside.files import BadLine, read_journal
from outside.replay import Replay
from outside.report import files_of

SHOWN = 300


class Difference(Exception):
    """What is found to be otherwise."""


def shown(data):
    text = data.decode("utf-8", "backslashreplace").replace("\r", "\\r").replace("\n", "\\n")
    return text if len(text) <= SHOWN else text[:SHOWN] + "..."


def need(holds, *message):
    if not holds:
        raise Difference("".join(piece if isinstance(piece, str) else shown(piece) for piece in message))


def has_one_order(job, lanes):
    """Whether just one journal is possible."""
    return job.mode == "order" or lanes == 1 or len(job.of_session) <= 1


def same_file(name, found, wanted):
    """Tells the first line that differs."""
    if found == wanted:
        return
    need(found is not None, f"{name} is missing")
    need(wanted is not None, f"{name} should not be there")
    found_lines, wanted_lines = found.split(b"\n"), wanted.split(b"\n")
    for number, (has, wants) in enumerate(zip(found_lines, wanted_lines), 1):
        need(has == wants, f"{name} line {number}: found `", has, "`, wanted `", wants, "`")
    number = min(len(found_lines), len(wanted_lines)) + 1
    has, wants = (lines[number - 1] if number <= len(lines) else b"(the end)" for lines in (found_lines, wanted_lines))
    need(False, f"{name} line {number}: found `", has, "`, wanted `", wants, "`")


def same_files(found, wanted):
    for name in [*wanted, *(name for name in found if name not in wanted)]:
        same_file(name, found.get(name), wanted.get(name))


class Follower:
    """Follows a journal event by event."""

    def __init__(self, replay, lanes):
        self.replay, self.lanes, self.under_way = replay, lanes, {}
        sessions = sorted(replay.job.of_session)
        self.seats = {lane: [session for session in sessions if session % lanes == lane] for lane in range(lanes)}

    def start(self, where, stamp):
        replay = self.replay
        need(stamp < len(replay.job.calls), where, f"there is no call {stamp}")
        need(stamp not in replay.started, where, f"call {stamp} has started already")
        need(replay.ready(stamp), where, f"call {stamp} starts before a call that it waits for was answered")
        lane = replay.job.calls[stamp].session % self.lanes
        need(lane not in self.under_way, where, f"lane {lane} starts call {stamp} while its call {self.under_way.get(lane)} is under way")
        picked = replay.pick(self.seats[lane])
        need(picked == stamp, where, f"lane {lane} starts call {stamp}, but the first that it may start is {picked}")
        self.under_way[lane] = stamp
        replay.start(stamp)

    def answer(self, where, stamp, reply):
        replay = self.replay
        need(stamp in replay.started, where, f"call {stamp} is answered before it started")
        need(stamp not in replay.answered, where, f"call {stamp} is answered already")
        self.under_way.pop(replay.job.calls[stamp].session % self.lanes, None)
        if replay.server is None:
            replay.hear(stamp, reply)
        else:
            replay.answer(stamp)


def follow(replay, data, lanes):
    """Follows the bytes of a journal; a `Difference` at the first line that is not permitted or not right."""
    try:
        mode, events = read_journal(data)
    except BadLine as bad:
        raise Difference(f"journal.txt line {bad.line}: the line is none of a journal") from None
    need(mode == replay.job.mode, f"journal.txt line 1: found the mode {mode}, wanted {replay.job.mode}")
    follower, lines = Follower(replay, lanes), data.split(b"\n")
    for number, (kind, stamp, what) in enumerate(events, 2):
        where = f"journal.txt line {number}: "
        if kind == "s":
            follower.start(where, stamp)
        else:
            follower.answer(where, stamp, what)
        need(lines[number - 1] == replay.events[-1], where + "found `", lines[number - 1], "`, wanted `", replay.events[-1], "`")
    need(len(replay.answered) == len(replay.job.calls), f"journal.txt line {len(events) + 2}: not every call is answered")


def judged(job, found, lanes=None, elsewhere=False):
    """The replay that the files tell; a `Difference` where they are not right."""
    replay = Replay(job, elsewhere)
    if has_one_order(job, lanes) and not elsewhere:
        replay.run_alone()
    else:
        need("journal.txt" in found, "journal.txt is missing")
        follow(replay, found["journal.txt"], lanes or max(1, job.sessions))
    same_files(found, files_of(replay))
    return replay
