"""Folders that cannot be written, a full device, no standard output, a port in use, and few descriptors. What was written before stands."""
import os
import resource
import shutil
import signal
import socket
import subprocess
from pathlib import Path

import small_server
from attack_program import CONNECT, HOST, PATIENCE, Client, Service, files_below, in_folder, outcome, ran, same, sql, until

EXAMPLE = Path(__file__).resolve().parent.parent / "examples/first"
# The files of a run, in the order in which they are written.
ORDER = ("journal.txt", "report.txt", "report.csv", "tables.txt", "maps.csv", "causes.csv")
NEW = {name: (EXAMPLE / "replayed" / name).read_bytes() for name in ORDER}
OLD = {name: b"old\n" for name in ORDER}
FAULT = (5, "device fault\n")
# The descriptors of a service: too few for a connection, and enough for one at a time with that of the next, which is taken before it comes.
NONE, ONE = (4, 5), 7
WORDS = ["run", "cap", "out", "--think", "0", "--connect", "0"]


def capture(folder):
    (folder / "cap").mkdir()
    for name in ("start.cap", "session-000.cap"):
        shutil.copy(EXAMPLE / name, folder / "cap")
    put(folder / "out", OLD)


def put(folder, files):
    folder.mkdir(exist_ok=True)
    for name, held in files.items():
        (folder / name).write_bytes(held)


def first(count):
    """The files of `out` where so many of them were written."""
    return OLD | {name: NEW[name] for name in ORDER[:count]}


def limited(kind, most):
    """A process whose files, or whose descriptors, are limited. A write past the limit is answered as a full device is, by an error."""
    def limit():
        signal.signal(signal.SIGXFSZ, signal.SIG_IGN)
        resource.setrlimit(kind, (most, most))
    return limit


def small_files(program, folder):
    """No file may have more bytes than so many: the first longer one fails, and those before stand."""
    sizes = sorted({size for held in NEW.values() for size in (0, 1, len(held) - 1, len(held))})
    for size in sizes:
        put(folder / "out", OLD)
        came = ran(program, folder, WORDS, preexec_fn=limited(resource.RLIMIT_FSIZE, size))
        failing = next((place for place, name in enumerate(ORDER) if len(NEW[name]) > size), None)
        same(f"files of {size} bytes", came, (0, "replayed 3 calls, 0 divergent\n") if failing is None else FAULT)
        same(f"what stands with files of {size} bytes", files_below(folder / "out"), first(len(ORDER) if failing is None else failing))
    return len(sizes)


def no_output(program, folder):
    """A standard output on a full device, closed, and one that nobody reads."""
    read_end, write_end = os.pipe()
    os.close(read_end)
    with open("/dev/full", "wb") as full, os.fdopen(write_end, "wb") as unread:
        for told, how in (("full", {"stdout": full}), ("unread", {"stdout": unread}), ("closed", {"preexec_fn": lambda: os.close(1)})):
            put(folder / "out", OLD)
            same(f"a {told} output", ran(program, folder, WORDS, **how), (5, ""))
            same(f"what stands with a {told} output", files_below(folder / "out"), first(len(ORDER)))


def places(folder):
    """Folders that cannot be made or written, with what each command would write there."""
    (folder / "file").write_bytes(b"old\n")
    (folder / "kept").mkdir()
    yield "file"
    yield "file/below"
    yield "/proc/none"
    yield "/dev/full"
    yield "/dev/full/below"
    if os.geteuid():
        (folder / "kept").chmod(0o555)
        yield "kept"


def bad_folders(program, folder):
    before, count = None, 0
    for count, place in enumerate(places(folder), 1):
        before = before or files_below(folder)
        for words in (["run", "cap", place], ["prepare", "cap", place], ["generate", "5", place]):
            same(f"{words}", ran(program, folder, words), FAULT)
            same(f"what stands after {words}", files_below(folder), before)
    return count


def names_in_the_way(program, folder):
    """A folder stands where a file is to be written, or read."""
    for place, name in enumerate(ORDER):
        shutil.rmtree(folder / "out")
        put(folder / "out", {other: b"old\n" for other in ORDER if other != name})
        (folder / "out" / name).mkdir()
        same(f"a folder {name}", ran(program, folder, WORDS), FAULT)
        same(f"what stands beside it", files_below(folder / "out"), {k: v for k, v in first(place).items() if k != name})
    (folder / "other/start.cap").mkdir(parents=True)
    same("a folder start.cap", ran(program, folder, ["run", "other", "out"]), FAULT)


FULL = """mount -t tmpfs -o size=16k none out && printf old >out/journal.txt || exit 125
head -c 20000 /dev/zero >out/filler 2>/dev/null
"$0" run cap out; echo $?; ls out; cat out/journal.txt"""


def on_full_device(program, folder):
    """An output folder on a device of 16 KiB that is full, where this system lets one be made. Whether it does."""
    words = ["unshare", "--user", "--map-root-user", "--mount", "sh", "-c", FULL, program]
    if not shutil.which("unshare"):
        return False
    done = subprocess.run(words, cwd=folder, stdout=subprocess.PIPE, stderr=subprocess.DEVNULL, timeout=PATIENCE)
    if done.stdout:
        same("a full device", done.stdout.decode(), "device fault\n5\nfiller\njournal.txt\nold")
    return bool(done.stdout)


@in_folder
def devices(program, folder):
    capture(folder)
    sizes, is_full = small_files(program, folder), on_full_device(program, folder)
    no_output(program, folder)
    names_in_the_way(program, folder)
    shutil.rmtree(folder / "out")
    return (f"{bad_folders(program, folder)} folders that cannot be written, {sizes} limits of a file, "
            f"{'a full device' if is_full else 'no full device, which this system does not let be made'}")


def served_into(program, folder, place, **how):
    """A `serve` of one client into this folder: its status and its line."""
    with Service(program, folder, 1, into=place, **how) as service:
        with Client(service.port) as client:
            same("a connect", client.ask(CONNECT), outcome("connected"))
            same("an insert", client.ask(sql("INSERT INTO acct VALUES (3, 7)"))["outcome"], {"count": 1})
        return service.ended()


def port_in_use(program, folder):
    """Somebody else listens at the port. Nothing is written, and the other one still listens."""
    with socket.socket() as other:
        other.bind((HOST, 0))
        other.listen()
        port = other.getsockname()[1]
        same("a port in use", ran(program, folder, ["serve", "cap", "start", "1", "--port", str(port)]), FAULT)
        socket.create_connection((HOST, port), timeout=PATIENCE).close()
        other.accept()[0].close()


def guests(port, count):
    """So many clients, or as many as are taken."""
    for _ in range(count):
        try:
            yield Client(port)
        except OSError:
            return


def few_descriptors(program, folder):
    """With descriptors for the port and less than a connection, a service ends where it cannot take the first, and no file is written. With those
    of one more, clients that come one after the other are all served, since each gives back what it had."""
    for most in NONE:
        with Service(program, folder, 3, preexec_fn=limited(resource.RLIMIT_NOFILE, most)) as service:
            for client in list(guests(service.port, 3)):
                client.stream.close()
            same(f"{most} descriptors", service.ended(), FAULT)
    with Service(program, folder, 3, into="one", preexec_fn=limited(resource.RLIMIT_NOFILE, ONE)) as service:
        for _ in range(3):
            until("no connection has descriptors", lambda: service.descriptors() == NONE[0])
            with Client(service.port) as client:
                same("a connect", client.ask(CONNECT), outcome("connected"))
        same("one at a time", service.ended()[0], 0)
    shutil.rmtree(folder / "one")


@in_folder
def services_on_devices(program, folder):
    (folder / "start").write_text(small_server.START)
    put(folder / "cap", {"start.cap": b"old\n", "session-000.cap": b"old\n", "session-001.cap": b"old\n"})
    before = files_below(folder)
    port_in_use(program, folder)
    few_descriptors(program, folder)
    for place in ("start", "start/below", "/proc/none", "/dev/full/below"):
        same(f"served into {place}", served_into(program, folder, place), FAULT)
    same("files of 10 bytes", served_into(program, folder, "cap", preexec_fn=limited(resource.RLIMIT_FSIZE, 10)), FAULT)
    same("what stands", files_below(folder), before)
    return "a port in use, few descriptors, folders that cannot be written and a small device: all as before"
