"""What is shown on a terminal, and nowhere else: how far a run is, and which connections a service has."""
import contextlib
import os
import pty
import re
import subprocess
import threading
import time
import tty
from concurrent.futures import ThreadPoolExecutor

from attack_program import CONNECT, PATIENCE, Client, Service, Wrong, in_folder, outcome, same, until, within

# A run of so many calls, before each of which but the first it pauses so long, in seconds. It lasts longer than the second behind which it tells
# how far it is.
CALLS, PAUSE = 6, 0.6
LINE = f"replayed {CALLS} calls, 0 divergent\n"
SHOWN = re.compile(rf"\r(\d+) of {CALLS} calls started, (\d+) s")
# Folders of captures, and options. What a session's file is called, a folder and another file may be called too.
REMAP = "session-map.csv"
MAPS = ("--remap", REMAP)
CAPTURES = (("cap", ()), ("my-session-2", ()), ("session-000", MAPS), ("session-000.cap", ()), ("session-1/session-001.cap", MAPS))


class Terminal:
    """A terminal: the end that a program is given, and what comes there."""

    def __init__(self):
        self.own, self.given = pty.openpty()
        tty.setraw(self.given)
        self.held, self.thread = b"", threading.Thread(target=self.read)

    def __enter__(self):
        self.thread.start()
        return self

    def __exit__(self, *_):
        self.text()
        os.close(self.own)

    def read(self):
        # (where nobody has the other end any more a read fails)
        with contextlib.suppress(OSError):
            while part := os.read(self.own, 4096):
                self.held += part

    def text(self):
        """All that came there, once the program has ended."""
        if self.given is not None:
            os.close(self.given)
            self.given = None
        self.thread.join()
        return self.held.decode()


def capture(folder):
    folder.mkdir(parents=True)
    (folder / "start.cap").write_text("start 1\nlevel 1\nsvc main rw\nnextrow 1\nsessions 1\nend\n")
    moments = [int(place * PAUSE * 1_000_000) for place in range(CALLS)]
    calls = [f"{place} {at} {at} 0 - sql tCOMMIT [] > committed - [] -\n" for place, at in enumerate(moments)]
    calls[0] = "0 0 0 0 - connect tmain > connected [] -\n"
    (folder / "session-000.cap").write_text("session 1 0\n" + "".join(calls) + "end\n")


def shown_run(program, folder, name, options, out):
    """A run whose standard error is a terminal tells there how many of its calls are started, line over line; its own line is on the standard output."""
    begun = time.monotonic()
    with Terminal() as terminal:
        done = subprocess.run([program, "run", name, out, *options], cwd=folder, stdin=subprocess.DEVNULL, stdout=subprocess.PIPE,
                              stderr=terminal.given, timeout=PATIENCE)
        took, text = time.monotonic() - begun, terminal.text()
    same(f"{name}", (done.returncode, done.stdout.decode()), (0, LINE))
    told = [(int(started), int(seconds)) for started, seconds in SHOWN.findall(text)]
    same(f"{name}: what is no progress on the terminal", SHOWN.sub("", text), "\n")
    if len(told) < 2 or told != sorted(told) or told[0][0] == CALLS or told[-1][0] != CALLS:
        raise Wrong(f"{name}: progress {told}")
    within(f"{name}: seconds of the first progress", told[0][1], 1, took)
    within(f"{name}: seconds of the last progress", told[-1][1], int((CALLS - 1) * PAUSE), took)


def shown_run_elsewhere(program, folder, out):
    """A run against a server tells as much."""
    (folder / out).mkdir()
    with Service(program, folder / out, 1) as service:
        shown_run(program, folder, "cap", ("--target", str(service.port)), f"{out}-run")
        service.finish(CALLS + 1)


def unshown_run(program, folder, out):
    """A run whose standard output alone is a terminal tells nothing but its line there."""
    with Terminal() as terminal:
        done = subprocess.run([program, "run", "cap", out], cwd=folder, stdin=subprocess.DEVNULL, stdout=terminal.given,
                              stderr=subprocess.PIPE, timeout=PATIENCE)
        same("a run without a terminal for its errors", (done.returncode, done.stderr.decode(), terminal.text()), (0, "", LINE))


def file_run(program, folder, out):
    """A run whose standard error is a file tells nothing there."""
    with open(folder / "told", "wb") as told:
        done = subprocess.run([program, "run", "my-session-2", out], cwd=folder, stdin=subprocess.DEVNULL, stdout=subprocess.PIPE,
                              stderr=told, timeout=PATIENCE)
    same("a run with a file for its errors", (done.returncode, done.stdout.decode(), (folder / "told").read_text()), (0, LINE, ""))


def short_runs(program, folder, out):
    """What takes no second tells nothing on a terminal."""
    for words, line in ((["run", "cap", out, "--think", "0"], LINE), (["prepare", "cap", out], f"prepared {CALLS} calls\n")):
        begun = time.monotonic()
        with Terminal() as terminal:
            done = subprocess.run([program, *words], cwd=folder, stdin=subprocess.DEVNULL, stdout=subprocess.PIPE, stderr=terminal.given, timeout=PATIENCE)
            text = terminal.text()
        same(f"{words}", (done.returncode, done.stdout.decode()), (0, line))
        if time.monotonic() - begun < 1:
            same(f"{words}: on the terminal", text, "")


def visited(service, told):
    """Two clients, the second once it is told that the first is gone. What is shown by then ends so, where something is."""
    for number in (1, 2):
        with Client(service.port) as client:
            same("a connect", client.ask(CONNECT), outcome("connected"))
        until(f"client {number} is told to have left", lambda: told(f"connection {number} has ended\n"))
    service.finish(4)


def shown_service(program, folder, out):
    """A service tells on a terminal where it listens, and each connection that comes and that has ended."""
    lines = ["listening at 127.0.0.1:{}", "connection 1 came", "connection 1 has ended", "connection 2 came", "connection 2 has ended", ""]
    (folder / out).mkdir()
    with Terminal() as terminal, Service(program, folder / out, 2, stderr=terminal.given) as service:
        visited(service, lambda line: line in terminal.held.decode())
        same("what a service tells", terminal.text(), "\n".join(lines).format(service.port))


def unshown_service(program, folder, out):
    """Without a terminal it tells nothing."""
    (folder / out).mkdir()
    with open(folder / out / "told", "wb") as told, Service(program, folder / out, 2, stderr=told) as service:
        visited(service, lambda _: True)
        same("what a service tells in a file", (folder / out / "told").read_text(), "")


@in_folder
def terminal(program, folder):
    """All at once, since they wait."""
    for name, _ in CAPTURES:
        capture(folder / name)
    (folder / REMAP).write_text("service,one,main\nservice,two,main\nservice,three,main\n")
    others = (shown_run_elsewhere, unshown_run, file_run, short_runs, shown_service, unshown_service)
    tasks = [(shown_run, *one) for one in CAPTURES] + [(task,) for task in others]
    with ThreadPoolExecutor(len(tasks)) as pool:
        begun = [pool.submit(task, program, folder, *rest, f"out-{number}") for number, (task, *rest) in enumerate(tasks)]
        for done in begun:
            done.result()
    return f"{len(CAPTURES) + 1} runs and a service that tell on a terminal how far they are; nothing elsewhere, and no result among it"
