"""What ends early: a run and a service that a signal ends, and a service whose client stays silent. The old files stand, all of them."""
import itertools
import shutil
import signal
import time
from pathlib import Path

from attack_program import CONNECT, Client, Process, Service, files_below, in_folder, outcome, same, sql, until

EXAMPLE = Path(__file__).resolve().parent.parent / "examples/first"
SIGNALS = (signal.SIGTERM, signal.SIGINT, signal.SIGHUP)
HOUR = 3_600_000_000
# By how many lanes a run goes that is ended. Its one session is served by the program's own thread, or by a thread of its lane; a second lane
# has no session, so there are as many threads as lanes.
LANES = ("1", "2")
# How often a client that stays silent is looked at.
LOOKS = 50
# How often a run that waits is looked at.
SLEEPS = 5


def slow_capture(folder):
    """The first example, whose INSERT came an hour behind its connect."""
    (folder / "cap").mkdir()
    shutil.copy(EXAMPLE / "start.cap", folder / "cap")
    lines = (EXAMPLE / "session-000.cap").read_text().split("\n")
    lines[2:4] = [line.replace(" 0 0 ", f" {HOUR} {HOUR} ", 1) for line in lines[2:4]]
    (folder / "cap/session-000.cap").write_text("\n".join(lines))


def old_files(folder):
    folder.mkdir()
    for name in ("journal.txt", "report.txt", "start.cap", "session-000.cap"):
        (folder / name).write_bytes(b"old\n")
    return files_below(folder)


@in_folder
def ended_runs(program, folder):
    """A run that waits for an hour is ended."""
    slow_capture(folder)
    before = old_files(folder / "out")
    for lanes, number in itertools.product(LANES, SIGNALS):
        with Process(program, folder, ["run", "cap", "out", "--lanes", lanes]) as process:
            until("a lane waits", lambda: waits(process, int(lanes)) or not process.is_alive())
            same(f"a run by {lanes} lanes that {number.name} ends", process.ended(number), (-number, ""))
        same(f"what stands behind {number.name}", files_below(folder / "out"), before)
    return f"a run that waits, by one lane and by two, ended by {len(SIGNALS)} signals: the old files stand"


def waits(process, threads):
    """Whether a run of so many threads sleeps, each of some times that it is looked at."""
    for _ in range(SLEEPS):
        if process.threads() != threads or not process.sleeps():
            return False
        time.sleep(0.01)
    return True


@in_folder
def ended_services(program, folder):
    """A service of which one client has left, one is connected, and one says nothing is ended; and one that waits for such a client."""
    before = old_files(folder / "cap")
    for number in SIGNALS:
        with Service(program, folder, 4) as service:
            served(service)
            with Client(service.port) as silent, Client(service.port) as connected:
                same("a connect", connected.ask(CONNECT), outcome("connected"))
                same(f"a service that {number.name} ends", service.ended(number), (-number, ""))
                same("what comes then", (silent.stream.recv(1), connected.stream.recv(1)), (b"", b""))
        same(f"what stands behind {number.name}", files_below(folder / "cap"), before)
    silent_client(program, folder, before)
    return f"a service ended by {len(SIGNALS)} signals: the old files stand; one waits for a client that says nothing, and then writes"


def served(service):
    """A client that commits something and leaves."""
    with Client(service.port) as client:
        same("a connect", client.ask(CONNECT), outcome("connected"))
        client.ask(sql("UPDATE acct SET bal = 1"))
        same("a commit", len(client.ask(sql("COMMIT"))["outcome"]["committed"]), 2)


def silent_client(program, folder, before):
    """While one client stays silent, the others are served and nothing is written. Once it has left, all is."""
    with Service(program, folder, 2 + LOOKS) as service:
        with Client(service.port):
            for _ in range(LOOKS + 1):
                served(service)
                same("what stands beside a silent client", files_below(folder / "cap"), before)
            same("the service goes on", service.is_alive(), True)
        service.finish(4 * (LOOKS + 1))
    service.replays(program, 4 * (LOOKS + 1))
