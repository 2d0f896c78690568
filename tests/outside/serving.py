"""Conversations with `serve`, and the captures that `generate` makes.

Enters: a source of chance and a bench. Leaves: nothing, or a `Difference`: each answer is compared byte by byte, and what was written.
"""
import random
import re
import socket
import time

from outside.captures import Clients, random_shape
from outside.files import CapturedCall, Refusal, read_capture, write_capture, write_start
from outside.judge import Difference, need, same_file, same_files
from outside.json_texts import EDGE_CALLS, NO_CALLS, compact, plain_call, plain_reply, spelled
from outside.legality import facts_of, legal_calls, wrote_something
from outside.plain_runs import expect
from outside.replay import Job, Replay
from outside.report import ending_of, files_of
from outside.schema import Column, Row, Start, Table
from outside.server import Server
from outside.values import Reply

HOST, WAIT, PORTS = "127.0.0.1", 60, (10_000, 32_000)
LENGTH = re.compile(rb"Content-Length: ([0-9]+)\r\n")
PHRASES = {
    200: b"OK", 400: b"Bad Request", 404: b"Not Found", 405: b"Method Not Allowed", 411: b"Length Required", 413: b"Payload Too Large",
    431: b"Request Header Fields Too Large",
}
# Requests after which the connection stays, each with its answer's status.
STAYING = (
    (b"GET /nothing HTTP/1.1\r\n\r\n", 404), (b"POST /call/ HTTP/1.1\r\nContent-Length: 3\r\n\r\nabc", 404),
    (b"GET /call HTTP/1.1\r\n\r\n", 405),
    (b"POST /session HTTP/1.1\r\nContent-Length: 0\r\n\r\n", 405), (b"PUT /call HTTP/1.1\ncontent-LENGTH: 1\n\nx", 405),
)
# Requests that end the connection.
CLOSING = (
    (b"a" * 8192, 431), (b"what\r\n\r\n", 400), (b"POST /call HTTP/1.1\r\n\r\n", 411),
    (b"GET /session HTTP/1.1\r\nTransfer-Encoding: chunked\r\n\r\n", 411),
    (b"POST /call HTTP/1.1\r\nContent-Length: 1\r\nContent-Length: 1\r\n\r\n", 400),
    (b"POST /call HTTP/1.1\r\nContent-Length: 65537\r\n\r\n", 413), (b"POST /call HTTP/1.1\r\nContent-Length: +1\r\n\r\n", 400),
    (b"GET /nothing HTTP/1.0\r\n\r\n", 404), (b"GET /nothing HTTP/1.1\r\nconnection: CLOSE\r\n\r\n", 404),
    (b"GET /call HTTP/1.1\r\n" + b"a: b\r\n" * 65 + b"\r\n", 400),
)
ASKS_NUMBER = b"GET /session HTTP/1.1\r\n\r\n"
DISCONNECTED = Reply(("disconnected",), (), None)


def free_port():
    """A port that nobody has, out of the range from which the system takes those of clients."""
    while True:
        port = random.SystemRandom().randrange(*PORTS)
        with socket.socket() as probe:
            try:
                probe.bind((HOST, port))
                return port
            except OSError:
                continue


def answer_text(status, body=b"", closes=False):
    head = b"HTTP/1.1 %d %s\r\n" % (status, PHRASES[status]) + (b"Content-Type: application/json\r\n" if status == 200 else b"")
    return head + b"Content-Length: %d\r\n" % len(body) + (b"Connection: close\r\n" if closes else b"") + b"\r\n" + body


class Line:
    """A connection to the program: each request has one answer."""

    def __init__(self, port, process):
        until = time.monotonic() + WAIT
        while True:
            try:
                self.stream = socket.create_connection((HOST, port), timeout=WAIT)
                break
            except ConnectionRefusedError:
                if process.poll() is not None or time.monotonic() > until:
                    raise Difference("the service does not listen") from None
                time.sleep(0.003)
        self.kept = b""

    def more(self):
        data = self.stream.recv(65536)
        self.kept += data
        return bool(data)

    def ask(self, request):
        """The bytes of the answer; what came where the connection ended before."""
        self.stream.sendall(request)
        while b"\r\n\r\n" not in self.kept:
            if not self.more():
                return self.kept
        length = LENGTH.search(self.kept)
        end = self.kept.index(b"\r\n\r\n") + 4 + (int(length[1]) if length else 0)
        while len(self.kept) < end and self.more():
            pass
        answer, self.kept = self.kept[:end], self.kept[end:]
        return answer

    def ends(self):
        """Whether the connection ends without more bytes."""
        try:
            return not self.kept and not self.more()
        except ConnectionResetError:
            return True

    def close(self):
        self.stream.close()


def request_of(chance, body):
    """A request with a body, in some spelling."""
    name = chance.choice((b"Content-Length", b"content-length", b"CONTENT-LENGTH"))
    end = chance.choice((b"\r\n", b"\r\n", b"\n"))
    more = chance.choice(([], [], [b"Host: x"], [b"Accept: */*", b"Expect: 100-continue"]))
    return end.join([b"POST /call HTTP/1.1", *more, b"%s: %d" % (name, len(body)), b"", b""]) + body


class Conversation:
    """Some clients of one service, one request at a time."""

    def __init__(self, chance, bench, port):
        self.chance, self.bench = chance, bench
        sessions = chance.choice((1, 2, 3, 5))
        self.clients = Clients(chance, random_shape(chance, 0, sessions, calm=chance.random() < 0.5, likes={"ids": chance.random() < 0.3}))
        self.said = [[] for _ in range(sessions)]
        self.spoken, self.lines = [], []
        bench.put({"s.cap": write_start(self.clients.start, chance.choice((0, 1, 64)))})
        self.process = bench.open(["serve", "cap", "s.cap", str(sessions), "--port", str(port)])

    def same_answer(self, session, request, wanted):
        found = self.lines[session].ask(request)
        need(found == wanted, f"session {session}: to `", request, "` found `", found, "`, wanted `", wanted, "`")

    def request(self, session):
        """One random request and its answer."""
        chance, luck = self.chance, self.chance.random()
        if luck < 0.04:
            body = b'{"calls":%d,"session":%d}' % (len(self.said[session]), session)
            return self.same_answer(session, ASKS_NUMBER, answer_text(200, body))
        if luck < 0.09:
            return self.same_answer(session, request_of(chance, chance.choice(NO_CALLS)), answer_text(400))
        if luck < 0.12:
            request, status = chance.choice(STAYING)
            return self.same_answer(session, request, answer_text(status))
        if luck < 0.14:
            body, call = chance.choice(EDGE_CALLS)
            return self.call(session, call, request_of(chance, body.encode()))
        call = self.clients.call(session)
        return self.call(session, call, request_of(chance, self.spelling(call)))

    def spelling(self, call):
        plain = plain_call(call)
        if plain.get("binds") == [] and self.chance.random() < 0.5:
            del plain["binds"]
        return compact(plain) if self.chance.random() < 0.5 else spelled(self.chance, plain).encode()

    def call(self, session, call, request):
        if self.clients.binds_a_stranger(call):
            self.bench.count("binds an id never given")
            return self.same_answer(session, request, answer_text(400))
        reply = self.clients.answer(session, call)
        self.note(session, call, reply)
        self.bench.count("calls by HTTP")
        return self.same_answer(session, request, answer_text(200, compact(plain_reply(reply))))

    def note(self, session, call, reply):
        self.said[session].append((call, reply))
        self.spoken.append((session, call, reply))

    def closing_request(self, session):
        request, status = self.chance.choice(CLOSING)
        self.same_answer(session, request, answer_text(status, b"", True))
        need(self.lines[session].ends(), f"session {session}: the connection stays open behind `", request, "`")

    def speak(self, port):
        """All requests, then the end of each connection."""
        self.lines = [Line(port, self.process) for _ in self.said]
        for session in range(len(self.lines)):
            self.same_answer(session, ASKS_NUMBER, answer_text(200, b'{"calls":0,"session":%d}' % session))
        for _ in range(self.chance.choice((5, 20, 40))):
            self.request(self.chance.randrange(len(self.lines)))
        for session in range(len(self.lines)):
            if self.chance.random() < 0.2:
                self.closing_request(session)

    def hang_up(self):
        """What the service printed, once all connections have ended."""
        for line in self.lines:
            line.close()
        printed, _ = self.process.communicate(timeout=WAIT)
        return self.process.returncode, printed

    def stop(self):
        for line in self.lines:
            line.close()
        if self.process.poll() is None:
            self.process.kill()
        self.process.communicate()

    def wanted_calls(self):
        """The calls of each session that must have been recorded."""
        wanted = [list(said) for said in self.said]
        for session, said in enumerate(wanted):
            if self.clients.server.session(session).rights is not None:
                said.append((("disconnect",), DISCONNECTED))
        return wanted


def served(chance, bench):
    """A conversation, and whether the capture of it is legal, tells what was said, and is replayed as it was."""
    port = free_port()
    conversation = Conversation(chance, bench, port)
    try:
        conversation.speak(port)
        status, printed = conversation.hang_up()
    finally:
        conversation.stop()
    written = bench.found("cap")
    bench.files.update({"cap/" + name: data for name, data in written.items()})
    try:
        start, sessions = read_capture(bench.read, "cap")
        calls = legal_calls(start, sessions)
    except Refusal as refusal:
        raise Difference("the written capture is refused: " + refusal.line.decode()) from None
    same_file("start.cap", bench.read("cap/start.cap"), write_start(conversation.clients.start, len(conversation.said)))
    line = b"served %d connections, %d calls\n" % (len(sessions), len(calls))
    need((status, printed) == (0, line), f"found status {status} and `", printed, "`, wanted `", line, "`")
    for session, wanted in enumerate(conversation.wanted_calls()):
        recorded = [(captured.call, captured.reply) for captured in sessions[session]]
        need(recorded == wanted, f"session {session}: other calls were recorded than were made")
    spoken = [(captured.session, captured.call, captured.reply) for captured in calls]
    need(spoken[:len(conversation.spoken)] == conversation.spoken, "the calls were recorded in another order")
    same_files(written, write_capture(start, sessions))
    replay_unchanged(bench, start, calls, len(sessions))


def replay_unchanged(bench, start, calls, sessions):
    job = Job(start, start, calls, facts_of(start, calls), sessions, think=0, connect=0)
    replay = Replay(job).run_alone()
    need(not replay.classes, "the rules themselves replay this otherwise")
    expect(bench, ["run", "cap", "out", "--think", "0", "--connect", "0"], ending_of(replay), files_of(replay))


# The made capture.


def made_call(stamp):
    """What a session of the made capture calls: connect, and then update, read and commit again and again."""
    turn, account = stamp // 4, 7 * stamp % 100 + 1
    if turn == 0:
        return ("connect", b"main")
    if turn % 3 == 1:
        return ("sql", b"UPDATE acct SET bal = bal + 1 WHERE id = :1", (("integer", account),))
    if turn % 3 == 2:
        return ("sql", b"SELECT bal FROM acct WHERE id = :1", (("integer", account),))
    return ("sql", b"COMMIT", ())


def made_capture(count):
    """The start and the calls of each session of the made capture, and how many commits it has."""
    columns = (Column(b"id", ("integer", 1, 100), True), Column(b"bal", ("integer", 0, 1_000_000), False))
    start = Start(1, 1, services=[(b"main", "rw")], tables=[Table(b"acct", columns)], next_row=101)
    start.rows = [Row(row, 0, (("integer", row), ("integer", 1000))) for row in range(1, 101)]
    server, sessions, commits = Server(start), [[], [], [], []], 0
    for stamp in range(count):
        session, call = stamp % 4, made_call(stamp)
        reply = server.answer(session, call)
        number = commits + 1 if wrote_something(reply) else None
        sessions[session].append(CapturedCall(session, stamp // 4, stamp, 10 * stamp, 10 * stamp + 5, commits, number, call, reply))
        commits += number is not None
    return start, sessions, commits


def generated(chance, bench):
    """`generate` and `trial`."""
    count = chance.choice((1, 2, 3, 4, 5, 15, 16, 17, 40, 41, 100, 333))
    start, sessions, commits = made_capture(count)
    expect(bench, ["generate", str(count), "out"], (0, b"generated %d calls" % count), write_capture(start, sessions))
    line = b"trial %d: %d calls, 0 divergent, %d commits" % (count, count, commits)
    status, printed = bench.run(["trial", str(count)])
    need((status, printed) == (0, line + b"\n"), f"found status {status} and `", printed, "`, wanted `", line, "`")
