"""The two files of the first example with each byte altered, and cut behind each byte: each is read as a capture or refused."""
import os
import re
import tempfile
from concurrent.futures import ThreadPoolExecutor
from pathlib import Path

from attack_program import Wrong, files_below, ran

EXAMPLE = Path(__file__).resolve().parent.parent / "examples/first"
NAMES = ("start.cap", "session-000.cap")
OTHERS = (b"\n", b"9", b"\xff")
WRITTEN = ["causes.csv", "journal.txt", "maps.csv", "report.csv", "report.txt", "tables.txt"]
REFUSED = re.compile(r"bad capture: (cap/(start|session-000)\.cap line \d+|stamp \d+( (has|saw|replied) .*)?|times at stamp \d+|unknown id at stamp \d+)\n")
DONE = "replayed 3 calls, 0 divergent\n"
# Where the start tells of more sessions, the file of the next one is asked for.
MORE_SESSIONS = (4, "missing: cap/session-001.cap\n")
WORDS = ["run", "cap", "out", "--think", "0", "--connect", "0"]


def altered_files():
    """Each altered file: its name and its bytes."""
    for name in NAMES:
        held = (EXAMPLE / name).read_bytes()
        yield from ((name, held[:place]) for place in range(len(held)))
        yield from ((name, held[:place] + OTHERS[place % len(OTHERS)] + held[place + 1 :]) for place in range(len(held)))


def run_altered(program, file):
    """Whether the capture with this file was replayed; else it was refused and nothing was written."""
    with tempfile.TemporaryDirectory(prefix="desk-attack-") as made:
        folder = Path(made)
        (folder / "cap").mkdir()
        for name in NAMES:
            (folder / "cap" / name).write_bytes(file[1] if name == file[0] else (EXAMPLE / name).read_bytes())
        status, line = ran(program, folder, WORDS)
        written = list(files_below(folder / "out")) if (folder / "out").exists() else []
    if (status, line, written) == (0, DONE, WRITTEN):
        return True
    refused = status == 3 and REFUSED.fullmatch(line) or (status, line) == MORE_SESSIONS
    if refused and not written:
        return False
    raise Wrong(f"{file}: status {status}, {line!r}, {written}")


def altered(program):
    with ThreadPoolExecutor(os.cpu_count()) as pool:
        taken = list(pool.map(lambda file: run_altered(program, file), altered_files()))
    return f"{len(taken)} altered files, {sum(taken)} of them captures still, all others refused and nothing written"
