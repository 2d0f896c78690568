"""The built program, run in a folder of its own, and a `serve` of it with its clients."""
import contextlib
import functools
import json
import os
import random
import shutil
import socket
import struct
import subprocess
import tempfile
import time
from pathlib import Path

import small_server
from conversation_answers import compact

HERE = Path(__file__).resolve().parent.parent
HOST, PORTS = "127.0.0.1", range(20000, 32000)
# How long anything may take that is to come at once. A machine may be busy.
PATIENCE = 60.0


class Wrong(Exception):
    """What came is not what was expected."""


def same(what, came, wanted):
    if came != wanted:
        raise Wrong(f"{what}: {came!r}, not {wanted!r}"[:2000])


def within(what, came, least, limit):
    if not least <= came < limit:
        raise Wrong(f"{what}: {came}, not from {least} to less than {limit}")


def until(what, holds):
    """Waits until something holds."""
    ends = time.monotonic() + PATIENCE
    while not holds():
        if time.monotonic() > ends:
            raise Wrong(f"{what}: not within {PATIENCE:.0f} seconds")
        time.sleep(0.002)


def ran(program, folder, words, **how):
    """The status and the line of the program with these words."""
    how = {"stdout": subprocess.PIPE, "stdin": subprocess.DEVNULL, "stderr": subprocess.DEVNULL} | how
    done = subprocess.run([program, *words], cwd=folder, timeout=PATIENCE, **how)
    return done.returncode, (done.stdout or b"").decode()


def files_below(folder):
    """The files in a folder with their bytes, by their names from there."""
    return {str(name.relative_to(folder)): name.read_bytes() for name in sorted(Path(folder).rglob("*")) if name.is_file()}


def free_port():
    """A port that nobody listens at, below those that a client's side of a connection takes by itself."""
    for port in random.sample(PORTS, len(PORTS)):
        with socket.socket() as tried:
            tried.setsockopt(socket.SOL_SOCKET, socket.SO_REUSEADDR, 1)
            with contextlib.suppress(OSError):
                tried.bind((HOST, port))
                return port
    raise OSError("no port is free")


def is_listening(port):
    """Whether somebody listens at the port, told by the system's table, so that no connection is made."""
    wanted = f"0100007F:{port:04X}"
    lines = Path("/proc/net/tcp").read_text().splitlines()[1:]
    return any(line.split()[1] == wanted and line.split()[3] == "0A" for line in lines)


class Process:
    """A process of the program, which is ended with the block."""

    def __init__(self, program, folder, words, **how):
        how |= {"stdout": subprocess.PIPE, "stdin": subprocess.DEVNULL} | ({} if "stderr" in how else {"stderr": subprocess.DEVNULL})
        self.process = subprocess.Popen([program, *words], cwd=folder, **how)

    def __enter__(self):
        return self

    def __exit__(self, *_):
        if self.process.poll() is None:
            self.process.kill()
        self.process.wait()
        self.process.stdout.close()

    def threads(self):
        return len(os.listdir(f"/proc/{self.process.pid}/task"))

    def sleeps(self):
        """Whether each of its threads waits for something."""
        states = [path.read_text().rsplit(")", 1)[1].split()[0] for path in Path(f"/proc/{self.process.pid}/task").glob("*/stat")]
        return states == ["S"] * len(states)

    def descriptors(self):
        return len(os.listdir(f"/proc/{self.process.pid}/fd"))

    def peak(self):
        """The most memory that it had so far, in KiB."""
        lines = Path(f"/proc/{self.process.pid}/status").read_text().splitlines()
        return next(int(line.split()[1]) for line in lines if line.startswith("VmHWM:"))

    def is_alive(self):
        return self.process.poll() is None

    def ended(self, signal=None):
        """The status and the line, where a signal may end it."""
        if signal is not None:
            self.process.send_signal(signal)
        line, _ = self.process.communicate(timeout=PATIENCE)
        return self.process.returncode, line.decode()


class Service(Process):
    """A `serve` of so many connections, which listens where it can. It writes into `cap` in its folder, or into another one."""

    def __init__(self, program, folder, connections, into="cap", start=small_server.START, **how):
        self.folder, self.connections, self.port = Path(folder), connections, free_port()
        (self.folder / "start").write_text(start)
        super().__init__(program, folder, ["serve", into, "start", str(connections), "--port", str(self.port)], **how)
        until("serve listens", lambda: self.is_listening() or not self.is_alive())

    def is_listening(self):
        return is_listening(self.port)

    def said(self, session):
        """The calls of a session with their replies, as they were captured."""
        lines = (self.folder / "cap" / f"session-{session:03}.cap").read_text().split("\n")
        same("first line", lines[0], f"session 1 {session}")
        same("last lines", lines[-2:], ["end", ""])
        return [line.split(" ", 5)[5] for line in lines[1:-2]]

    def finish(self, calls):
        """It has ended by itself after so many calls, and what it captured replays."""
        same("serve", self.ended(), (0, f"served {self.connections} connections, {calls} calls\n"))

    def replays(self, program, calls):
        words = ["run", "cap", "out", "--think", "0", "--connect", "0", "--lanes", "1"]
        same("run", ran(program, self.folder, words), (0, f"replayed {calls} calls, 0 divergent\n"))


class Client:
    """A connection to a `serve`."""

    def __init__(self, port, room=None):
        self.stream = socket.socket()
        if room:
            self.stream.setsockopt(socket.SOL_SOCKET, socket.SO_RCVBUF, room)
        self.stream.settimeout(PATIENCE)
        self.stream.connect((HOST, port))
        self.stream.setsockopt(socket.IPPROTO_TCP, socket.TCP_NODELAY, 1)
        self.held = b""

    def __enter__(self):
        return self

    def __exit__(self, *_):
        self.stream.close()

    def send(self, data):
        self.stream.sendall(data)

    def more(self):
        part = self.stream.recv(65536)
        if not part:
            raise Wrong(f"the answer ends behind {self.held!r}")
        self.held += part

    def answer(self):
        """The next answer: its status, its body and whether the connection closes."""
        while b"\r\n\r\n" not in self.held:
            self.more()
        head, _, self.held = self.held.partition(b"\r\n\r\n")
        lines = head.decode().split("\r\n")
        fields = dict(line.split(": ", 1) for line in lines[1:])
        length = int(fields["Content-Length"])
        while len(self.held) < length:
            self.more()
        body, self.held = self.held[:length], self.held[length:]
        return int(lines[0].split(" ")[1]), body, fields.get("Connection") == "close"

    def ask(self, call):
        """What a call is answered, as JSON."""
        self.send(post(call))
        status, body, _ = self.answer()
        return json.loads(body) if status == 200 else status

    def session(self):
        """How many calls of this connection were answered, and the number of its session."""
        self.send(SESSION)
        status, body, _ = self.answer()
        same("GET /session", status, 200)
        told = json.loads(body)
        return told["calls"], told["session"]

    def reset(self):
        """Leaves at once, without what a connection ends with."""
        self.stream.setsockopt(socket.SOL_SOCKET, socket.SO_LINGER, struct.pack("ii", 1, 0))
        self.stream.close()


SESSION = b"GET /session HTTP/1.1\r\n\r\n"
CONNECT = {"connect": "main"}


def post(call):
    body = compact(call)
    return b"POST /call HTTP/1.1\r\nContent-Length: %d\r\n\r\n" % len(body) + body


def sql(text, *binds):
    return {"binds": list(binds), "sql": text}


def outcome(word, value=True):
    """The answer to a call that draws nothing and makes nothing."""
    return {"draws": [], "made": None, "outcome": {word: value}}


def script_with(program, folder):
    """The script `replay` in a folder of its own, which runs this program as the one that it has built."""
    built = Path(folder) / "crates/replay_desk/out/replay_desk"
    built.parent.mkdir(parents=True)
    built.symlink_to(program)
    (Path(folder) / "usage").symlink_to(HERE / "usage")
    return shutil.copy(HERE / "replay", folder)


def in_folder(function):
    """The function with a new folder behind the program."""
    @functools.wraps(function)
    def with_folder(program):
        with tempfile.TemporaryDirectory(prefix="desk-attack-") as folder:
            return function(program, Path(folder))
    return with_folder
