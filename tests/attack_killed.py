"""The program killed at random moments while it writes. Each file is the old one or the new one, and the next run writes over what was left."""
import os
import random
import shutil
import time
from pathlib import Path

from attack_program import CONNECT, PATIENCE, Client, Process, Service, Wrong, files_below, in_folder, outcome, ran, same, sql

EXAMPLES = Path(__file__).resolve().parent.parent / "examples"
PART = ".desk-part"
SESSIONS = [f"session-{session:03}.cap" for session in range(4)]
SERVED = [*SESSIONS[:2], "start.cap"]
WRITTEN = ["journal.txt", "report.txt", "report.csv", "tables.txt", "maps.csv", "causes.csv"]
# Of each command the words, and its files in the order in which they are written.
COMMANDS = (
    (["run", str(EXAMPLES / "sessions"), "cap", "--think", "0", "--connect", "0"], WRITTEN),
    (["generate", "100", "cap"], [*SESSIONS, "start.cap"]),
    (["prepare", str(EXAMPLES / "sessions"), "cap"], ["requires.csv"]),
)
SAID = ["connect", "sql", "sql", "disconnect"]
# Of each command: how often it is killed between its first and its last write, where that takes no longer.
WANTED, SECONDS = 12, 6.0


def renew(folder, names):
    """The folder with old files of these names, and these files."""
    shutil.rmtree(folder, ignore_errors=True)
    folder.mkdir(parents=True)
    for name in names:
        (folder / name).write_bytes(f"old {name}\n".encode() * 50)
    return files_below(folder)


def marks(folder):
    """What changes with each write."""
    return {(entry.name, entry.inode()) for entry in os.scandir(folder)}


class Killer:
    """Kills a process of a command at a random moment behind its first write, and sooner the next time where that was too late."""

    def __init__(self, program, folder, names):
        self.program, self.folder, self.names = program, folder, names
        self.rounds, self.cuts, self.longest, self.ends = 0, 0, 0.05, time.monotonic() + SECONDS

    def goes_on(self):
        return self.cuts < WANTED and time.monotonic() < self.ends

    def kill(self, process, before):
        ends = time.monotonic() + PATIENCE
        while marks(self.folder / "cap") == before and process.is_alive() and time.monotonic() < ends:
            pass
        time.sleep(random.uniform(0, self.longest))
        process.process.kill()
        process.process.wait()

    def look(self, before, is_new):
        """The files that are written are the first so many, whole, and the others are old ones."""
        left = files_below(self.folder / "cap")
        begun = [name for name in left if name.endswith(PART)]
        new = [name for name in self.names if left.get(name) != before[name]]
        same("names that stand", set(left) - set(begun), set(before))
        same("files that are written", new, self.names[: len(new)])
        for name in new:
            if not is_new(name, left[name]):
                raise Wrong(f"{name} is neither the old one nor the new one: {left[name][:200]!r}")
        self.rounds += 1
        self.cuts += bool(begun) or 0 < len(new) < len(self.names)
        self.longest /= 1 if len(new) < len(self.names) else 2

    def told(self, word):
        return f"{word} {self.rounds} times, {self.cuts} of them between its first write and its last"


def kill_command(program, folder, words, names):
    """Kills a command again and again. The next run leaves what it leaves otherwise, and nothing that was begun."""
    same(f"{words}", ran(program, folder, words)[0], 0)
    new, killer = files_below(folder / "cap"), Killer(program, folder, names)
    while killer.goes_on():
        before = renew(folder / "cap", names)
        seen = marks(folder / "cap")
        with Process(program, folder, words) as process:
            killer.kill(process, seen)
        killer.look(before, lambda name, held: held == new[name])
    same(f"{words} behind a kill", ran(program, folder, words)[0], 0)
    same("what stands behind it", files_below(folder / "cap"), new)
    return killer


def is_served(name, held):
    """Whether these are the whole file that the service writes."""
    if name == "start.cap":
        return held.startswith(b"start 1\n") and held.endswith(b"sessions 2\nend\n")
    first, *calls, end, rest = held.decode().split("\n")
    return (first, end, rest) == (f"session 1 {int(name[8:11])}", "end", "") and [line.split(" ")[5] for line in calls] == SAID


def kill_service(program, folder):
    """Kills a `serve` while it writes what two clients said."""
    killer = Killer(program, folder, SERVED)
    while killer.goes_on():
        before = renew(folder / "cap", SERVED)
        seen = marks(folder / "cap")
        with Service(program, folder, 2) as service:
            for _ in range(2):
                with Client(service.port) as client:
                    same("a connect", client.ask(CONNECT), outcome("connected"))
                    client.ask(sql("INSERT INTO item VALUES (s.NEXTVAL, 1)"))
                    client.ask(sql("COMMIT"))
            killer.kill(service, seen)
        killer.look(before, is_served)
    return killer


@in_folder
def killed(program, folder):
    killers = {}
    for words, names in COMMANDS:
        (folder / words[0]).mkdir()
        killers[words[0]] = kill_command(program, folder / words[0], words, names)
    killers["serve"] = kill_service(program, folder)
    if not all(killer.cuts for killer in killers.values() if len(killer.names) > 1):
        raise Wrong("no kill came between two writes: " + "; ".join(killer.told(word) for word, killer in killers.items()))
    return "; ".join(killer.told(word) for word, killer in killers.items())
