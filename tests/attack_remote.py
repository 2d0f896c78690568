"""Replays against a `serve` of the program and against servers that break off. What is sent is told by the server's own capture."""
import contextlib
import itertools
import json
import random
import socket
import threading
from pathlib import Path

from attack_crowd import FINDS, STATEMENTS, call_json, reply_of
from attack_program import HOST, PATIENCE, Client, Service, files_below, in_folder, ran, same, until
from conversation_answers import call_of, call_text, compact, reply_json, reply_text

SESSIONS, CALLS, ROUNDS = 6, 150, 4
PACE = ("--think", "0", "--connect", "0")
WAYS = (
    ("--mode", "order"), ("--mode", "order", "--lanes", "2"), ("--mode", "object"), ("--mode", "scn", "--lanes", "3"), ("--mode", "off"),
    ("--mode", "off", "--lanes", "1"),
)
NO_SUCH_ID = "refused 16 [] -"
# The rows of the start, which both servers have.
OF_THE_START = {"r1": "r1", "r2": "r2"}


# A capture, made by clients of whom one calls at a time.


class Speaker:
    """A connection that makes random calls, with ids that it was given."""

    def __init__(self, port, chance):
        self.client, self.random = Client(port), chance
        self.given = {"row": [("row", 1), ("row", 2)], "draw": []}
        self.say(("connect", chance.choice(("main", "main", "main", "report", "none"))))

    def say(self, call):
        _, draws, made = reply_of(self.client.ask(call_json(call)))
        self.given["draw"] += draws
        self.given["row"] += [("row", made)] if made else []

    def speak(self):
        kind = self.random.randrange(10)
        if kind < 6:
            return self.say(("sql", self.random.choice(STATEMENTS), ()))
        if kind == 6:
            return self.say(("sql", "INSERT INTO acct VALUES (:1, :2)", (self.random.randrange(40), self.random.randrange(900))))
        word = ("row", "draw")[kind % 2]
        return self.say(("sql", FINDS[word], (self.random.choice(self.given[word] or [1]),)))


def capture(program, folder, number):
    """Captures random calls; how many there are."""
    chance = random.Random(number)
    with Service(program, folder, SESSIONS) as service, contextlib.ExitStack() as open_clients:
        speakers = [Speaker(service.port, chance) for _ in range(SESSIONS)]
        for speaker in speakers:
            open_clients.enter_context(speaker.client)
        for _ in range(CALLS):
            chance.choice(speakers).speak()
        open_clients.close()
        status, line = service.ended()
    same("serve", (status, line.split(" ")[:3]), (0, ["served", str(SESSIONS), "connections,"]))
    return int(line.split(" ")[3])


def calls_of(folder, session):
    """The calls of a session of a capture: each one's stamp, its text and its reply's."""
    lines = (folder / f"session-{session:03}.cap").read_text().split("\n")
    same("first line", lines[0], f"session 1 {session}")
    split = [line.split(" ", 5) for line in lines[1:-2]]
    return [(int(fields[0]), *fields[5].split(" > ")) for fields in split]


# A server of the program.


def mapped(call, pairs):
    """The text of a call with its ids by the pairs, and with 2 to the 40th added to those that have none."""
    head, opened, binds = call.rpartition(" [")
    if not opened:
        return call
    return head + opened + ",".join(pairs.get(bind) or strange(bind) for bind in binds[:-1].split(",")) + "]"


def strange(bind):
    """A bind that no pair has: an id as one that was never given, anything else as it is."""
    head, dot, number = (bind[:1], "", bind[1:]) if bind[:1] == "r" else bind.rpartition(".")
    return f"{head}{dot}{int(number) + 2**40}" if bind[:1] in ("r", "d") else bind


def replies_of(journal):
    """The reply to each call by its stamp, and that each is started once and answered once."""
    lines = journal.split("\n")
    same("last lines", lines[-2:], ["end", ""])
    events = [line.split(" ", 2) for line in lines[1:-2]]
    starts = [int(stamp) for word, stamp, _ in events if word == "s"]
    same("starts", len(set(starts)), len(starts))
    answers = {int(stamp): reply for word, stamp, reply in events if word == "a"}
    same("answers", sorted(answers), sorted(starts))
    return answers


def replayed(program, folder, calls, way, number):
    """Replays the capture against a `serve`, and compares what came there with what the files tell; how many calls differ."""
    name = f"again-{number}"
    with Service(program, folder, SESSIONS, into=name) as service:
        words = ["run", "cap", f"out-{number}", *way, *PACE, "--target", str(service.port)]
        status, line = ran(program, folder, words)
        ended = service.ended()
    out, again = folder / f"out-{number}", folder / name
    same("files", sorted(files_below(out)), ["journal.txt", "maps.csv", "report.csv", "report.txt"])
    differ = (out / "report.csv").read_text().count("\n") - 1
    same("run", (status, line), (1 if differ else 0, f"replayed {calls} calls, {differ} divergent\n"))
    pairs = OF_THE_START | dict(pair.split(",") for pair in (out / "maps.csv").read_text().split("\n")[1:-1])
    answers, sent = replies_of((out / "journal.txt").read_text()), 0
    for session in range(SESSIONS):
        wanted = [(mapped(call, pairs), answers[stamp]) for stamp, call, _ in calls_of(folder / "cap", session)]
        wanted = [told for told in wanted if told[1] != NO_SUCH_ID]
        same(f"what came on line {session}", [told[1:] for told in calls_of(again, session)], wanted)
        sent += len(wanted)
    same("serve", ended, (0, f"served {SESSIONS} connections, {sent} calls\n"))
    if "order" in way:
        same("calls that differ in the captured order", differ, 0)
    return differ


# Servers that break off.


def as_answer(body, status=b"200 OK"):
    return b"HTTP/1.1 %s\r\nContent-Length: %d\r\n\r\n" % (status, len(body)) + body


CONNECTED = compact({"draws": [], "made": None, "outcome": {"connected": True}})
GOOD = as_answer(CONNECTED)
# What comes in the place of an answer, before the connection is closed.
BREAKS = (
    b"", GOOD[:1], GOOD[:30], GOOD[:-1], b"HTTP/1.1 200 OK\r\n\r\n" + CONNECTED, b"nothing of this kind\r\n\r\n", b"\x00" * 9_000,
    as_answer(CONNECTED, b"500 Internal Server Error"), as_answer(CONNECTED, b"503 Service Unavailable"), as_answer(b"{}"), as_answer(b"[1"),
    as_answer(b'{"draws":[],"made":null,"outcome":{"rows":[[1e3]]}}'), b"HTTP/1.1 200 OK\r\nContent-Length: 99999999999\r\n\r\n" + CONNECTED,
    b"HTTP/1.1 200 OK\r\nX: " + b"x" * 20_000 + b"\r\n\r\n",
)


class Breaking:
    """A server that answers so many requests, and breaks the one behind them off. It keeps the calls of each connection."""

    def __init__(self, answered, ending):
        self.left, self.ending, self.heard, self.threads = answered, ending, [], []
        self.lock, self.listener = threading.Lock(), socket.create_server((HOST, 0))
        self.port = self.listener.getsockname()[1]

    def __enter__(self):
        self.threads.append(threading.Thread(target=self.accept))
        self.threads[0].start()
        return self

    def __exit__(self, *_):
        with contextlib.suppress(OSError):
            self.listener.shutdown(socket.SHUT_RDWR)
        for thread in self.threads:
            thread.join()
        self.listener.close()

    def accept(self):
        with contextlib.suppress(OSError):
            for number in itertools.count():
                stream, _ = self.listener.accept()
                stream.settimeout(PATIENCE)
                self.heard.append([])
                thread = threading.Thread(target=self.serve, args=(stream, number))
                thread.start()
                self.threads.append(thread)

    def serve(self, stream, number):
        with stream, contextlib.suppress(OSError):
            while (call := request(stream)) is not None:
                self.heard[number].append(call)
                with self.lock:
                    self.left -= 1
                    last = self.left < 0
                stream.sendall(self.ending if last else GOOD)
                if last:
                    return


def request(stream):
    """The call of the next request; `None` where the connection has ended."""
    held = b""
    while b"\r\n\r\n" not in held:
        part = stream.recv(65536)
        if not part:
            return None
        held += part
    head, _, body = held.partition(b"\r\n\r\n")
    fields = dict(line.split(": ", 1) for line in head.decode().split("\r\n")[1:])
    while len(body) < int(fields["Content-Length"]):
        body += stream.recv(65536)
    return json.loads(body)


def broken(program, folder, calls, answered, ending):
    """A replay of which one answer breaks off: it ends so, writes nothing, and each line has heard captured calls, in order, each once. In the
    captured order no call is sent behind the one that broke off."""
    way = WAYS[answered % len(WAYS)]
    with Breaking(answered, ending) as server:
        words = ["run", "cap", "broken", *way, *PACE, "--target", str(server.port)]
        same(f"run, {way}, {answered} answered, then {ending[:60]!r}", ran(program, folder, words), (10, "link fault\n"))
        # (a line that was dialled may not have been taken yet)
        until("each session has a line", lambda: len(server.heard) >= SESSIONS)
    same("files behind it", (folder / "broken").exists(), False)
    same("lines", len(server.heard), SESSIONS)
    for session, heard in enumerate(server.heard):
        wanted = [call for _, call, _ in calls_of(folder / "cap", session)]
        same(f"calls of line {session}", [word_of(call) for call in heard], [call.split(" ")[0] for call in wanted[:len(heard)]])
    heard = sum(map(len, server.heard))
    if "order" in way:
        same("calls in the captured order", heard, answered + 1)
    return heard


def word_of(call):
    return next(word for word in ("connect", "sql", "disconnect") if word in call)


# Answers to one call.


def with_head(*fields, body=CONNECTED, first=b"HTTP/1.1 200 OK", end=b"\r\n"):
    """An answer of such a first line, these fields, and a body."""
    return end.join((first, *fields, b"", b"")) + body


def long_head(size):
    """An answer whose head has so many bytes."""
    return with_head(b"Content-Length: 53", b"X: " + b"a" * (size - len(with_head(b"Content-Length: 53", b"X: ", body=b""))))


LENGTH, NO_LENGTH, BAD_REQUEST = b"Content-Length: 53", b"Content-Length: 0", b"HTTP/1.1 400 Bad Request"
CHUNKED = b"Transfer-Encoding: chunked"
REPLY, REFUSED, FAULT = (0, "replayed 1 calls, 0 divergent\n"), (1, "replayed 1 calls, 1 divergent\n"), (10, "link fault\n")
# An answer, and what a replay of one call comes to that is answered so: the reply, `refused 16`, or none.
ANSWERS = (
    ("a reply", with_head(LENGTH), REPLY),
    ("an answer of HTTP/1.0", with_head(LENGTH, first=b"HTTP/1.0 200 OK"), REPLY),
    ("lines ended by LF alone", with_head(LENGTH, end=b"\n"), REPLY),
    ("a field in another case", with_head(b"content-LENGTH: 53"), REPLY),
    ("ten digits", with_head(b"Content-Length: 0000000053"), REPLY),
    ("bytes behind it", with_head(LENGTH) + b"HTTP/1.1", REPLY),
    ("400", with_head(NO_LENGTH, body=b"", first=BAD_REQUEST), REFUSED),
    ("400 with a reply", with_head(LENGTH, first=BAD_REQUEST), REFUSED),
    ("400 without a length", with_head(body=b"", first=BAD_REQUEST), FAULT),
    ("201 with a reply", with_head(LENGTH, first=b"HTTP/1.1 201 Created"), FAULT),
    ("404", with_head(NO_LENGTH, body=b"", first=b"HTTP/1.1 404 Not Found"), FAULT),
    ("409", with_head(NO_LENGTH, body=b"", first=b"HTTP/1.1 409 Conflict"), FAULT),
    ("503", with_head(NO_LENGTH, b"Connection: close", body=b"", first=b"HTTP/1.1 503 Service Unavailable"), FAULT),
    ("no length", with_head(), FAULT),
    ("two lengths", with_head(LENGTH, LENGTH), FAULT),
    ("chunks", with_head(CHUNKED, body=b"35\r\n" + CONNECTED), FAULT),
    ("chunks beside a length", with_head(CHUNKED, LENGTH), REPLY),
    ("no digit", with_head(b"Content-Length: "), FAULT),
    ("11 digits", with_head(b"Content-Length: 00000000053"), FAULT),
    ("a sign", with_head(b"Content-Length: +53"), FAULT),
    ("134,217,728 bytes", with_head(b"Content-Length: 134217728"), FAULT),
    ("134,217,729 bytes", with_head(b"Content-Length: 134217729"), FAULT),
    ("no byte", b"", FAULT),
    ("the end in the head", with_head(LENGTH, body=b"")[:-2], FAULT),
    ("the end in the body", with_head(b"Content-Length: 54"), FAULT),
    ("a request", with_head(LENGTH, first=b"POST /call HTTP/1.1"), FAULT),
    ("no HTTP", b"connected\r\n\r\n" + CONNECTED, FAULT),
    ("no JSON", with_head(b"Content-Length: 1", body=b"{"), FAULT),
    ("a reply less a byte", with_head(b"Content-Length: 52"), FAULT),
    ("JSON of no reply", with_head(b"Content-Length: 2", body=b"{}"), FAULT),
    ("200 with no body", with_head(NO_LENGTH, body=b""), FAULT),
    ("a head of 8,192 bytes", long_head(8192), REPLY),
    ("a head of 8,193 bytes", long_head(8193), FAULT),
    ("64 fields", with_head(LENGTH, *[b"X: a"] * 63), REPLY),
    ("65 fields", with_head(LENGTH, *[b"X: a"] * 64), FAULT),
)


def answered(program, folder, name, answer, ending):
    """A replay of one call that is answered so, by a server that then ends the connection."""
    out = f"answered-{name.replace(' ', '-').replace('/', '-')}"
    with Breaking(0, answer) as server:
        words = ["run", "one", out, *PACE, "--target", str(server.port)]
        same(f"run, answered by {name}", ran(program, folder, words), ending)
    files = ["journal.txt", "maps.csv", "report.csv", "report.txt"] if ending != FAULT else []
    same(f"files, answered by {name}", sorted(files_below(folder / out)) if (folder / out).exists() else [], files)
    if files:
        reply = "connected [] -" if ending == REPLY else NO_SUCH_ID
        same(f"the reply, answered by {name}", replies_of((folder / out / "journal.txt").read_text()), {0: reply})


def of_another_kind(program, folder):
    """The replay of one call whose reply is of another kind than the captured one, which no server of the program gives."""
    reply = compact({"draws": [], "made": None, "outcome": {"count": 1}})
    with Breaking(0, as_answer(reply)) as server:
        words = ["run", "one", "kind", *PACE, "--target", str(server.port)]
        same("run, answered by another kind", ran(program, folder, words), REFUSED)
    report = (folder / "kind" / "report.txt").read_text().split("\n")
    same("the report, answered by another kind", report[2:3] + report[-4:], ["same 0", "shape 1", "0 0 0 shape", "end", ""])
    told = (folder / "kind" / "report.csv").read_text().split("\n")[1:]
    same("the record, answered by another kind", told, ["0,0,0,shape,connected [] -,count 1 [] -", ""])


def answers(program, folder):
    """A capture of one call, replayed against a server that gives each of these answers in turn."""
    same("a reply", len(CONNECTED), 53)
    (folder / "one").mkdir()
    (folder / "one" / "start.cap").write_text("start 1\nlevel 1\nsvc main rw\nnextrow 1\nsessions 1\nend\n")
    (folder / "one" / "session-000.cap").write_text("session 1 0\n0 0 0 0 - connect tmain > connected [] -\nend\n")
    for name, answer, ending in ANSWERS:
        answered(program, folder, name, answer, ending)
    of_another_kind(program, folder)
    return len(ANSWERS)


# Servers that answer otherwise than was captured.


ITEMS = """start 1
level 1
seq s 10
svc main rw
svc report ro
svc test rw
table acct
col id int -1000000 1000000 notnull
col bal int -1000000 1000000 null
table item
col no seq s notnull
col qty int 0 1000 null
row 1 0 [i1,i100]
row 2 0 [i2,i50]
nextrow 3
sessions 2
end
"""
DRAWS = (
    """session 1 0
0 0 0 0 - connect tmain > connected [] -
2 0 0 0 - sql tINSERT%20INTO%20item%20VALUES%20%28s.NEXTVAL%2C%205%29 [] > count 1 [d0.10] r3
4 0 0 0 - sql tSELECT%20qty%20FROM%20item%20WHERE%20no%20%3D%20%3A1 [d0.10] > rows [i5] [] -
end
""",
    """session 1 1
1 0 0 0 - connect tmain > connected [] -
3 0 0 0 - sql tINSERT%20INTO%20item%20VALUES%20%28s.NEXTVAL%2C%206%29 [] > count 1 [d0.11] r4
end
""",
)
TO_CONNECT, FIRST_DRAW, SECOND_DRAW = (("connected",), [], None), (("count", 1), [("draw", 0, 10)], 3), (("count", 1), [("draw", 0, 11)], 4)
OTHERWISE = {
    "another row": ((TO_CONNECT, FIRST_DRAW, (("rows", [[6]]), [], None)), (TO_CONNECT, SECOND_DRAW)),
    "ids given twice": ((TO_CONNECT, FIRST_DRAW, (("rows", [[5]]), [], None)), (TO_CONNECT, FIRST_DRAW)),
}


class Scripted(Breaking):
    """A server that gives each connection these replies in turn. It keeps each call with its reply."""

    def __init__(self, replies):
        super().__init__(0, b"")
        self.replies = replies

    def serve(self, stream, number):
        with stream, contextlib.suppress(OSError):
            for reply in self.replies[number]:
                call = call_of(compact(request(stream)))
                self.heard[number].append(f"{call_text(call)} > {reply_text(reply)}")
                stream.sendall(as_answer(reply_json(reply)))


def stored(name):
    """What the program of cases `case_remote` tells of a replay of this name, whose lines answer so in memory; these were worked out by hand."""
    lines = (Path(__file__).resolve().parent.parent / "crates/case_remote/stdout").read_text().split("\n")
    first = next(place for place, line in enumerate(lines) if line.startswith(f"{name}: "))
    ends = [place for place, line in enumerate(lines) if not line and place > first][:2]
    return lines[first].partition(": ")[2], lines[first + 1 : ends[0]], lines[ends[0] + 1 : ends[1]]


def otherwise(program, folder, name, replies):
    """The same replay over the loopback."""
    out = folder / name.replace(" ", "-")
    with Scripted(replies) as server:
        status, line = ran(program, folder, ["run", "draws", out.name, *PACE, "--target", str(server.port)])
    ending, files, heard = stored(name)
    same(f"run, {name}", f"{status} {line}", ending + "\n")
    names = ("journal.txt", "report.txt", "report.csv", "maps.csv")
    told = [text for file in names for text in (f"out/{file}", *(out / file).read_text().split("\n")[:-1])]
    same(f"files, {name}", (told, sorted(files_below(out))), (files, sorted(names)))
    same(f"calls, {name}", [text for said in server.heard for text in (*said, "given back")], heard)


def otherwise_all(program, folder):
    """A capture of two sessions that draw numbers, replayed against servers that answer otherwise."""
    (folder / "draws").mkdir()
    for file, text in zip(("start", "session-000", "session-001"), (ITEMS, *DRAWS)):
        (folder / "draws" / f"{file}.cap").write_text(text)
    for name, replies in OTHERWISE.items():
        otherwise(program, folder, name, replies)


@in_folder
def remote(program, folder):
    """Random captures replayed against a `serve`, and against servers that break off at each place in turn."""
    differ = calls = 0
    for number in range(ROUNDS):
        part = Path(folder / str(number))
        part.mkdir()
        count = capture(program, part, number)
        for at, way in enumerate(WAYS):
            differ += replayed(program, part, count, way, at)
            calls += count
    breaks = [(at, BREAKS[at % len(BREAKS)]) for at in range(40)] + [(3, ending) for ending in BREAKS]
    heard = sum(broken(program, part, count, at, ending) for at, ending in breaks)
    given = answers(program, part)
    otherwise_all(program, part)
    with socket.create_server((HOST, 0)) as nobody:
        port = nobody.getsockname()[1]
    same("a run where nobody listens", ran(program, part, ["run", "cap", "broken", "--target", str(port)]), (10, "link fault\n"))
    return f"{ROUNDS * len(WAYS)} replays of {calls} calls against a serve, {differ} calls differ; {len(breaks)} broken off behind {heard} calls; {given} answers"
