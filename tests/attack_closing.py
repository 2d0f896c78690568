"""A register that cannot be closed: what the command did stands, but it ends as where a device failed."""
import resource
import shutil
import sqlite3
import subprocess
from contextlib import closing

from attack_devices import limited
from attack_program import PATIENCE, Wrong, in_folder, same

# Of a first run each call differs, so that its report makes the file longer than the log of a second one. The file may then grow no more, as on a
# full device: the log takes what is registered, and cannot be copied into the file when that is closed.
CALLS, FEWER = 20_000, 600
CLASSES = ("new-error", "gone-error", "mutated-error", "rows-modified", "rows-fetched", "row-contents", "images", "shape")
FAULT = 5


def report(lines):
    """A report of which so many calls differ."""
    head = ["report 1", f"calls {CALLS}", f"same {CALLS - lines}", *(f"{word} {lines if word == CLASSES[0] else 0}" for word in CLASSES)]
    return "\n".join([*head, *(f"{stamp} 0 {stamp} {CLASSES[0]}" for stamp in range(lines)), "end", ""])


LISTED = f"runs 2\nbig {CALLS} {CALLS}\nother {CALLS} {FEWER}\n"
# Each command while the file may not grow. The first is the one that makes it grow; the log stays behind it. The next to last has a cause why it is not
# done, which that of the device goes before.
COMMANDS = (
    ["register", "other", "other"],
    ["runs"],
    ["compare", "big", "other"],
    ["compare", "other", "big"],
    ["accept", "none", "3", "images"],
    ["accept", "other", "3", "images"],
)


def asked(program, folder, words, **how):
    done = subprocess.run([program, *words], cwd=folder, stdin=subprocess.DEVNULL, stdout=subprocess.PIPE, stderr=subprocess.PIPE, timeout=PATIENCE, **how)
    return done.returncode, done.stdout.decode(), done.stderr.decode()


def kept(folder):
    """What SQLite finds in the file without its log: the runs, and those of which something is accepted."""
    shutil.copy(folder / "register.db", folder / "alone.db")
    with closing(sqlite3.connect(folder / "alone.db")) as alone:
        reports, accepted = alone.execute("SELECT name, report FROM run").fetchall(), alone.execute("SELECT * FROM accepted").fetchall()
    return {name: held.decode() for name, held in reports}, accepted


@in_folder
def register_not_closed(program, folder):
    """Commands whose register cannot be closed, and the next one, whose can be."""
    reports = {"big": report(CALLS), "other": report(FEWER)}
    for name, text in reports.items():
        (folder / name).mkdir()
        (folder / name / "report.txt").write_text(text)
    same("register", asked(program, folder, ["register", "big", "big"]), (0, f"registered big: {CALLS} calls, {CALLS} divergent\n", ""))
    size = (folder / "register.db").stat().st_size
    for words in COMMANDS:
        came = asked(program, folder, words, preexec_fn=limited(resource.RLIMIT_FSIZE, size))
        same(f"{words} where the file cannot grow", came, (FAULT, "device fault\n", ""))
        if (folder / "register.db-wal").stat().st_size < len(reports["other"]):
            raise Wrong(f"{words}: nothing is left in the log, so closing did not fail")
    same("runs behind it", asked(program, folder, ["runs"]), (0, LISTED, ""))
    same("what the file holds then", kept(folder), (reports, [("other", 3, 7)]))
    return f"{len(COMMANDS)} commands whose register cannot be closed end as where a device failed; what they did is there"
