"""The made conversations over 127.0.0.1, with the built program's `serve`."""
import os
import random
import socket
import subprocess
import tempfile
import threading
import time
from concurrent.futures import ThreadPoolExecutor, as_completed
from pathlib import Path

import small_server
from conversation_answers import Conversation, call_text, reply_text

HOST = "127.0.0.1"
# Below the ports that a client's side of a connection takes by itself.
FIRST_PORT, LAST_PORT = 20000, 32000
PATIENCE = 5.0
WORKERS = 6
SHORT = 300
STEP, LAST = 97, 200
TOGETHER = 64
TOLD = 10


class Ports:
    """Ports that nobody listens on, each given once."""

    def __init__(self):
        self.next = FIRST_PORT + os.getpid() % 4000
        self.lock = threading.Lock()

    def take(self):
        with self.lock:
            while self.next < LAST_PORT:
                self.next += 1
                with socket.socket() as tried:
                    tried.setsockopt(socket.SOL_SOCKET, socket.SO_REUSEADDR, 1)
                    try:
                        tried.bind((HOST, self.next))
                    except OSError:
                        continue
                    return self.next
        raise OSError("no port is free")


class Wrong(Exception):
    """What came is not what was expected."""


def same(what, came, wanted):
    if came != wanted:
        raise Wrong(f"{what}: {came!r}, not {wanted!r}")


class Served:
    """A `serve` of so many connections in a folder of its own."""

    def __init__(self, program, ports, connections):
        self.connections = connections
        self.folder = tempfile.TemporaryDirectory()
        Path(self.folder.name, "start").write_text(small_server.START)
        self.port = ports.take()
        words = [program, "serve", "cap", "start", str(connections), "--port", str(self.port)]
        self.process = subprocess.Popen(words, cwd=self.folder.name, stdout=subprocess.PIPE)

    def __enter__(self):
        return self

    def __exit__(self, *_):
        if self.process.poll() is None:
            self.process.kill()
        self.process.wait()
        self.process.stdout.close()
        self.folder.cleanup()

    def connect(self):
        """A connection, once the program listens."""
        ends = time.monotonic() + PATIENCE
        while True:
            try:
                stream = socket.create_connection((HOST, self.port), timeout=PATIENCE)
                stream.setsockopt(socket.IPPROTO_TCP, socket.TCP_NODELAY, 1)
                return stream
            except ConnectionRefusedError:
                if self.process.poll() is not None or time.monotonic() > ends:
                    raise Wrong(f"nobody listens, status {self.process.poll()}") from None
                time.sleep(0.001)

    def finish(self, wanted):
        """Compares the status, the line and the files with the expected conversations, by session."""
        calls = sum(len(conversation.said) for conversation in wanted)
        line, _ = self.process.communicate(timeout=PATIENCE)
        same("line", line.decode(), f"served {self.connections} connections, {calls} calls\n")
        same("status", self.process.returncode, 0)
        capture = Path(self.folder.name, "cap")
        start = small_server.START.replace("sessions 1", f"sessions {self.connections}")
        same("start", (capture / "start.cap").read_text(), start)
        for session, conversation in enumerate(wanted):
            lines = (capture / f"session-{session:03}.cap").read_text().split("\n")
            same("first line", lines[0], f"session 1 {session}")
            same("last lines", lines[-2:], ["end", ""])
            calls = [line.split(" ", 5) for line in lines[1:-2]]
            texts = [f"{call_text(call)} > {reply_text(reply)}" for call, reply in conversation.said]
            same(f"calls of session {session}", [fields[5] for fields in calls], texts)
            if self.connections == 1:
                same("stamps, commits seen and numbers", [[f[0], *f[3:5]] for f in calls], numbers(conversation))


def numbers(conversation):
    """Of each call the stamp, how many numbered commits it saw, and which one it is."""
    lines, commits = [], 0
    for stamp, (_, (outcome, _, _)) in enumerate(conversation.said):
        numbered = outcome[0] == "committed" and bool(outcome[1])
        lines.append([str(stamp), str(commits), str(commits + 1) if numbered else "-"])
        commits += numbered
    return lines


def pieces(data, way, seed):
    """The writes in which the bytes are sent, each with the pause before it. A number tells the only place where they are cut."""
    if isinstance(way, int):
        return [(0.0, data[:way]), (0.002, data[way:])]
    if way == "bytes":
        return [(0.0, data[k : k + 1]) for k in range(len(data))]
    places = set()
    if way == "cut" and len(data) > 1:
        numbers = random.Random(seed)
        places = {numbers.randrange(1, len(data)) for _ in range(4)}
    ends = sorted(places | {len(data)})
    return [(0.002 if begin else 0.0, data[begin:end]) for begin, end in zip([0, *ends], ends)]


def exchanged(stream, data, way, seed):
    """Sends the bytes and gives what is answered. Bytes behind a request that closes may find nobody."""
    try:
        for pause, piece in pieces(data, way, seed):
            time.sleep(pause)
            stream.sendall(piece)
        stream.shutdown(socket.SHUT_WR)
    except (BrokenPipeError, ConnectionResetError, OSError):
        pass
    answer = b""
    try:
        while part := stream.recv(65536):
            answer += part
    except ConnectionResetError:
        pass
    return answer


def alone(program, ports, name, data, way):
    """One conversation, with a `serve` of its own."""
    with Served(program, ports, 1) as served:
        wanted = Conversation(data)
        with served.connect() as stream:
            same("answers", exchanged(stream, data, way, name), wanted.output)
        served.finish([wanted])


def together(program, ports, group):
    """Conversations at one time, of which none changes or holds anything: of each its name, its bytes and the way in which they are sent."""
    with Served(program, ports, len(group)) as served, ThreadPoolExecutor(len(group)) as pool:
        wanted = [Conversation(data, session) for session, (_, data, _) in enumerate(group)]
        streams = [served.connect() for _ in group]
        answers = [pool.submit(exchanged, stream, data, way, name) for stream, (name, data, way) in zip(streams, group)]
        for (name, _, way), conversation, answer in zip(group, wanted, answers):
            same(f"answers of {name}, {way}", answer.result(), conversation.output)
        for stream in streams:
            stream.close()
        served.finish(wanted)


def in_groups(quiet):
    """Conversations in groups of as many as a `serve` takes."""
    for first in range(0, len(quiet), TOGETHER):
        group = quiet[first : first + TOGETHER]
        yield len(group), f"together from {group[0][0]}", together, (group,)


def jobs(cases):
    """What is sent: how many conversations, a name, and the function with its arguments."""
    sent = [(name, data) for name, chunking, data in cases if chunking in ("whole", "cut")]
    short = [case for case in sent if len(case[1]) <= SHORT]
    for way, those in (("whole", sent), ("cut", sent), ("bytes", short)):
        yield from ((1, f"{name}, {way}", alone, (name, data, way)) for name, data in those)
    yield from ((1, f"{name}, bytes", alone, (name, data, "bytes")) for name, way, data in cases if way == "bytes")
    yield from in_groups([(name, data, "cut") for name, data in sent if not Conversation(data).server.touched])
    cut = [(name, data) for name, chunking, data in cases if chunking == "every"]
    yield from in_groups([(name, data, place) for name, data in cut for place in places(data)])


def places(data):
    """Where bytes are cut: everywhere, but of many at some places and near the end."""
    size = len(data)
    return range(1, size) if size <= SHORT else sorted({*range(1, size, STEP), *range(size - LAST, size)})


def fault(job, ends, program, ports):
    """Does a job. Gives why it failed."""
    _, name, function, words = job
    if time.monotonic() > ends:
        return f"{name}: the time is up"
    try:
        function(program, ports, *words)
    except (Wrong, OSError, subprocess.TimeoutExpired) as wrong:
        return f"{name}: {wrong}"
    return None


def compare(program, seconds, cases):
    """Sends all, and prints what differs and how many were the same. The status of the script."""
    program, ports, ends = os.path.abspath(program), Ports(), time.monotonic() + seconds
    compared, faults = 0, []
    with ThreadPoolExecutor(WORKERS) as pool:
        waiting = {pool.submit(fault, job, ends, program, ports): job[0] for job in jobs(cases)}
        for future in as_completed(waiting):
            if future.result():
                faults.append(future.result())
            else:
                compared += waiting[future]
    for line in faults[:TOLD]:
        print(line[:2000])
    print(f"conversations: {compared} compared" + (f", {len(faults)} failed" if faults else ""))
    return 1 if faults else 0
