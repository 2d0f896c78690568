"""Many lanes that wait for one another: each replay has to end, whatever wakes whom, also where one lane stops all others."""
import os
import random
from concurrent.futures import ThreadPoolExecutor

from attack_program import in_folder, ran, same
from attack_remote import GOOD, PACE, Breaking

MODES = ("off", "scn", "object", "order", "fence")
MOST, TABLES, CAPTURES, RUNS = 64, 4, 25, 1000
# How many answers come before a server breaks off, and how many lanes there are then.
BROKEN = [(answered, lanes) for answered in (0, 1, 2, 5, 31, 62, 63) for lanes in (2, 33, MOST)]
HEAD = ("start 1", "level 1", "svc main rw")


def start_text(sessions):
    """Tables of two columns. Each session has a row of its own, in one of them."""
    lines = list(HEAD)
    for table in range(TABLES):
        lines += [f"table t{table}", f"col id int 1 {MOST} notnull", "col bal int 0 1000 null"]
    lines += [f"row {s + 1} {s % TABLES} [i{s + 1},i0]" for s in range(sessions)]
    return "\n".join([*lines, f"nextrow {sessions + 1}", f"sessions {sessions}", "end", ""])


class Capture:
    """Sessions that change their own row, read another's, and commit, in a random order."""

    def __init__(self, chance, sessions, calls):
        self.chance, self.sessions, self.stamp, self.commits = chance, sessions, 0, 0
        self.lines = [[f"session 1 {s}"] for s in range(sessions)]
        self.balances, self.changed = [0] * sessions, [0] * sessions
        for session in chance.sample(range(sessions), sessions):
            self.say(session, "connect tmain > connected [] -")
        while self.stamp < calls:
            chance.choice((self.change, self.read, self.commit))(chance.randrange(sessions))

    def say(self, session, call, number="-"):
        self.lines[session].append(f"{self.stamp} 0 0 {self.commits} {number} {call}")
        self.stamp += 1

    def change(self, session):
        self.changed[session] += 1
        self.say(session, f"sql tUPDATE%20t{session % TABLES}%20SET%20bal%20%3D%20bal%20%2B%201%20WHERE%20id%20%3D%20%3A1 [i{session + 1}] > count 1 [] -")

    def read(self, session):
        other = self.chance.randrange(self.sessions)
        seen = self.balances[other] + (self.changed[other] if other == session else 0)
        self.say(session, f"sql tSELECT%20bal%20FROM%20t{other % TABLES}%20WHERE%20id%20%3D%20%3A1 [i{other + 1}] > rows [i{seen}] [] -")

    def commit(self, session):
        if not self.changed[session]:
            return self.say(session, "sql tCOMMIT [] > committed - [] -")
        self.balances[session] += self.changed[session]
        self.changed[session] = 0
        row, number = session + 1, self.commits + 1
        self.say(session, f"sql tCOMMIT [] > committed {row}:{session % TABLES}:[i{row},i{self.balances[session]}] [] -", number)
        self.commits = number

    def write(self, folder):
        folder.mkdir()
        (folder / "start.cap").write_text(start_text(self.sessions))
        for session, lines in enumerate(self.lines):
            (folder / f"session-{session:03}.cap").write_text("\n".join([*lines, "end", ""]))


def replayed(program, folder, calls, mode, lanes, number):
    """A replay that has to end in time with every call answered, and in the captured order as it was captured."""
    out = f"out-{number}"
    status, line = ran(program, folder, ["run", f"cap-{number % CAPTURES}", out, *PACE, "--mode", mode, "--lanes", str(lanes)])
    same(f"{mode} by {lanes} lanes", (status in (0, 1), line.split(", ")[0]), (True, f"replayed {calls} calls"))
    if mode == "order":
        same(f"{mode} by {lanes} lanes", line, f"replayed {calls} calls, 0 divergent\n")
    events = (folder / out / "journal.txt").read_text().count("\n") - 2
    same(f"events, {mode} by {lanes} lanes", events, 2 * calls)


def stopped(program, folder, mode, answered, lanes):
    """A replay whose server breaks off while other lanes sleep: it has to end in time."""
    with Breaking(answered, GOOD[:1]) as server:
        words = ["run", "cap-connects", "stopped", "--mode", mode, "--lanes", str(lanes), *PACE, "--target", str(server.port)]
        same(f"{mode} by {lanes} lanes, {answered} answered", ran(program, folder, words), (10, "link fault\n"))


def connects(folder):
    """A capture of as many sessions as there may be, of one call each."""
    capture = Capture(random.Random(0), MOST, MOST)
    same("calls", capture.stamp, MOST)
    capture.write(folder)


def tasks(folder):
    """Captures, and the replays that there are to be of them."""
    chance, calls = random.Random(1), []
    for number in range(CAPTURES):
        sessions = MOST if number % 5 else chance.randrange(2, MOST)
        capture = Capture(chance, sessions, chance.randrange(2, 9) * sessions)
        capture.write(folder / f"cap-{number}")
        calls.append(capture.stamp)
    for number in range(RUNS * len(MODES)):
        lanes = MOST if number % 4 else chance.randrange(2, MOST)
        yield calls[number % CAPTURES], MODES[number // RUNS], lanes, number


@in_folder
def lanes(program, folder):
    connects(folder / "cap-connects")
    with ThreadPoolExecutor(os.cpu_count()) as pool:
        begun = [pool.submit(replayed, program, folder, *task) for task in tasks(folder)]
        begun += [pool.submit(stopped, program, folder, mode, *task) for mode in MODES for task in BROKEN]
        for done in begun:
            done.result()
    return (f"{RUNS} replays in each of {len(MODES)} modes by 2 to {MOST} lanes, and {len(MODES) * len(BROKEN)} that a server breaks off, "
            "each to its end")
