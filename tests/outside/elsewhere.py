"""A server elsewhere, to which `run --target` sends its calls, and what it answers.

Enters: the program, running, and what is to be answered. Leaves: a log of what came and what was answered, in one order.
"""
import random
import re
import selectors
import socket
import time
from dataclasses import dataclass, field

from outside.json_texts import call_of, compact, plain_call, plain_reply, spelled
from outside.sentences import INTEGERS, TEXTS
from outside.server import Server
from outside.values import FAULTS, NULL, Image, Reply, given_ids, is_id, refusal

HOST, PATIENCE = "127.0.0.1", 120
REQUEST = re.compile(rb"POST /call HTTP/1\.1\r\nHost: 127\.0\.0\.1\r\nContent-Length: (0|[1-9][0-9]{0,9})\r\n\r\n")
HEAD_LIMIT = 200
BAD_REQUEST = "bad request"
NEVER_GIVEN = refusal(16)
GREATEST_ID = 2**64 - 1
SHORT_OUTCOMES = (("rolledback",), ("marked",), ("connected",), ("disconnected",), ("count", GREATEST_ID), ("rows", ()), ("committed", ()))
ODD_TEXTS = (b"\x00\x01\x1f\x7f", "ä\u2028\U0001f600".encode(), b'\\"/', b"\t\r\n\x08\x0c", b"z" * 1000, b"%41", b"a>b")


def request_of(call):
    """The bytes that the program sends for a call."""
    body = compact(plain_call(call))
    return b"POST /call HTTP/1.1\r\nHost: 127.0.0.1\r\nContent-Length: %d\r\n\r\n%s" % (len(body), body)


# What is answered. Each has `answer(connection, place, call)`, asked in the order in which the calls come.


class ByRules:
    """Answers as the rules say, with 400 where an id was never given."""

    def __init__(self, start):
        self.server, self.given = Server(start), start.ids()

    def answer(self, connection, _, call):
        if call[0] == "sql" and any(is_id(value) and value not in self.given for value in call[2]):
            return BAD_REQUEST
        reply = self.server.answer(connection, call)
        self.given.update(given_ids(reply))
        return reply


class AsCaptured:
    """Answers as was captured."""

    def __init__(self, job):
        self.replies = [[job.calls[stamp].reply for stamp in stamps] for _, stamps in sorted(job.of_session.items())]

    def answer(self, connection, place, _):
        return self.replies[connection][place]


class Renamed(AsCaptured):
    """Answers as was captured, with other ids for those that the start has not."""

    def __init__(self, job, chance):
        super().__init__(job)
        self.chance = chance
        self.names = {identity: identity for identity in job.start.ids()}
        self.used = set(self.names)

    def name(self, value):
        if not is_id(value):
            return value
        while value not in self.names:
            least, limit = self.chance.choice(((1, 60), (2**39, 2**40), (0, GREATEST_ID + 1)))
            name = (*value[:-1], self.chance.randrange(least, limit))
            if name not in self.used:
                self.names[value] = name
                self.used.add(name)
        return self.names[value]

    def row(self, values):
        return tuple(self.name(value) for value in values)

    def answer(self, connection, place, call):
        reply = super().answer(connection, place, call)
        outcome = reply.outcome
        if outcome[0] == "rows":
            outcome = ("rows", tuple(self.row(row) for row in outcome[1]))
        elif outcome[0] == "committed":
            images = [Image(self.name(("row", image.row))[1], image.table, image.values and self.row(image.values)) for image in outcome[1]]
            outcome = ("committed", tuple(sorted(images, key=lambda image: image.row)))
        return Reply(outcome, self.row(reply.draws), None if reply.made is None else self.name(("row", reply.made))[1])


class Changed:
    """Answers as another one does, but that some replies are made otherwise: by `other`, or with ids that stand already."""

    def __init__(self, base, job, seed, share, collide=False):
        self.base, self.seed, self.share, self.collide = base, seed, share, collide
        ids = job.start.ids()
        for captured in job.calls:
            ids.update(given_ids(captured.reply))
        self.ids = sorted(ids) or [("row", 5)]

    def answer(self, connection, place, call):
        reply, chance = self.base.answer(connection, place, call), random.Random(f"{self.seed} {connection} {place}")
        if chance.random() > self.share:
            return reply
        reply = NEVER_GIVEN if reply == BAD_REQUEST else reply
        return collided(chance, reply, self.ids) if self.collide else other_answer(chance, reply, self.ids)


class Faulty:
    """Answers as another one does, but that one call gets what is no answer."""

    def __init__(self, base, at, seed):
        self.base, self.at, self.seed = base, at, seed

    def answer(self, connection, place, call):
        reply = self.base.answer(connection, place, call)
        return random_fault(random.Random(self.seed), reply) if (connection, place) == self.at else reply


def random_id(chance, ids):
    luck = chance.random()
    if luck < 0.6:
        return chance.choice(ids)
    number = chance.choice((0, 1, 2, 3, 7, 10, 11, 12, 2**40 + 1, GREATEST_ID, chance.randrange(1, 50)))
    return ("row", number) if luck < 0.8 else ("draw", chance.choice((0, 0, 1, 2, 2**32 - 1)), number)


def random_value(chance, ids):
    return chance.choice((
        NULL, ("integer", chance.choice(INTEGERS)), ("text", chance.choice(TEXTS + ODD_TEXTS)), random_id(chance, ids),
        random_id(chance, ids),
    ))


def random_row(chance, ids):
    return tuple(random_value(chance, ids) for _ in range(chance.randint(1, 3)))


def other_rows(chance, rows, ids):
    rows, luck = list(rows), chance.random()
    if luck < 0.25:
        chance.shuffle(rows)
    elif luck < 0.4 and rows:
        rows.pop(chance.randrange(len(rows)))
    elif luck < 0.55 or not rows:
        rows.insert(chance.randrange(len(rows) + 1), random_row(chance, ids))
    else:
        place = chance.randrange(len(rows))
        values = list(rows[place])
        values[chance.randrange(len(values))] = random_value(chance, ids)
        rows[place] = tuple(values)
    return ("rows", tuple(rows))


def other_images(chance, images, ids):
    images, luck = {image.row: image for image in images}, chance.random()
    if images and luck < 0.7:
        image = images[chance.choice(sorted(images))]
        if luck < 0.2:
            del images[image.row]
        elif luck < 0.4:
            images[image.row] = image._replace(values=None if image.values else random_row(chance, ids))
        elif luck < 0.55:
            images[image.row] = image._replace(table=chance.choice((0, 1, 31)))
        elif image.values:
            images[image.row] = image._replace(values=(*image.values[:-1], random_value(chance, ids)))
    else:
        row = chance.choice((0, 1, 2, 3, 5, 77, GREATEST_ID))
        images[row] = Image(row, chance.choice((0, 1, 31)), chance.choice((None, random_row(chance, ids))))
    return ("committed", tuple(images[row] for row in sorted(images)))


def other_outcome(chance, outcome, ids):
    luck = chance.random()
    if luck < 0.2:
        return ("refused", chance.choice(sorted(FAULTS)))
    if luck < 0.35:
        return chance.choice(SHORT_OUTCOMES)
    if outcome[0] == "rows":
        return other_rows(chance, outcome[1], ids)
    if outcome[0] == "committed":
        return other_images(chance, outcome[1], ids)
    return ("count", chance.choice((0, 1, 2, 3, 1000))) if outcome[0] == "count" else outcome


def other_answer(chance, reply, ids):
    """Some good reply, or 400."""
    if chance.random() < 0.08:
        return BAD_REQUEST
    outcome = other_outcome(chance, reply.outcome, ids) if chance.random() < 0.7 else reply.outcome
    reply = reply._replace(outcome=outcome)
    return collided(chance, reply, ids) if chance.random() < 0.5 else reply


def collided(chance, reply, ids):
    """The same reply with draws and a made row that may stand already, on either side, or come twice."""
    draws = [other_draw(chance, value, ids) for value in reply.draws]
    luck = chance.random()
    if draws and luck < 0.15:
        draws.append(chance.choice(draws))
    elif luck < 0.25:
        draws.insert(0, ("draw", chance.choice((0, 0, 1, 2**32 - 1)), chance.randrange(1, 30)))
    rows = [value[1] for value in ids if value[0] == "row"] or [5]
    made = reply.made
    if chance.random() < (0.1 if made is None else 0.5):
        made = chance.choice((chance.choice(rows), chance.randrange(1, 60), GREATEST_ID, 0))
    elif chance.random() < 0.1:
        made = None
    return Reply(reply.outcome, tuple(draws), made)


def other_draw(chance, value, ids):
    known, luck = [other for other in ids if other[:2] == value[:2]], chance.random()
    if luck < 0.45 and known:
        return chance.choice(known)
    return ("draw", value[1], chance.randrange(1, 40)) if luck < 0.6 else value


# Bytes of answers.


@dataclass
class Fault:
    """Bytes that are no answer, and whether the connection is closed behind them."""

    data: bytes
    closes: bool = False


def answer_bytes(body, status=b"200 OK", fields=()):
    return b"\r\n".join([b"HTTP/1.1 " + status, *fields, b"Content-Length: %d" % len(body), b"", b""]) + body


OTHER_FIELDS = (
    b"Content-Type: text/plain", b"X-Content-Length: 7", b"Server: x", b"Connection: keep-alive", b"Transfer-Encoding: chunked", b"A:",
)
PHRASES = (b" OK", b" ", b"", b" or not, as it may be")


def spelled_answer(chance, body, status):
    """An answer with its head in some spelling."""
    name = chance.choice((b"Content-Length", b"content-length", b"CONTENT-LENGTH", b"cOnTeNt-LeNgTh"))
    digits = b"%d" % len(body)
    if chance.random() < 0.2:
        digits = digits.rjust(chance.randint(len(digits), 10), b"0")
    fields = [name + chance.choice((b": ", b": ", b":", b":  ", b":\t")) + digits + chance.choice((b"", b"", b" "))]
    fields += [field for field in OTHER_FIELDS if chance.random() < 0.15]
    if chance.random() < 0.05:
        fields += [b"X-%d: y" % number for number in range(64 - len(fields))]
    chance.shuffle(fields)
    first = chance.choice((b"HTTP/1.1 ", b"HTTP/1.1 ", b"HTTP/1.0 ")) + status + chance.choice(PHRASES)
    return (b"\r\n" if chance.random() < 0.9 else b"\n").join([first, *fields, b"", b""]) + body


def bytes_of(chance, answer):
    """The bytes of a reply or of 400, plain or in some spelling."""
    if answer == BAD_REQUEST:
        body = chance.choice((b"", b"", b"no", b'{"draws":[],"made":null,"outcome":{"count":1}}'))
        return answer_bytes(body, b"400 Bad Request") if chance.random() < 0.5 else spelled_answer(chance, body, b"400")
    plain = plain_reply(answer)
    if chance.random() < 0.5:
        return answer_bytes(compact(plain), fields=(b"Content-Type: application/json",))
    return spelled_answer(chance, spelled(chance, plain).encode(), b"200")


NO_OUTCOMES = (
    '{"count":-1}', '{"count":1.0}', '{"count":18446744073709551616}', '{"count":"1"}', '{"refused":0}', '{"refused":17}', '{"refused":35}',
    '{"refused":"20"}', '{"connected":false}', '{"connected":1}', "{}", "[]", "null", '{"count":1,"marked":true}', '{"Count":1}',
    '{"rows":[[]]}',
    '{"rows":[1]}', '{"rows":{}}', '{"rows":[[true]]}', '{"rows":[[1.5]]}', '{"rows":[[9223372036854775808]]}', '{"rows":[[{"row":-1}]]}',
    '{"rows":[[{"row":1,"x":1}]]}', '{"rows":[[{"draw":1}]]}', '{"rows":[[{"draw":1,"seq":4294967296}]]}',
    '{"rows":[["' + "a" * 1001 + '"]]}',
    '{"rows":[["\\ud800"]]}', '{"committed":[{"now":[],"row":1,"table":0}]}', '{"committed":[{"now":[1],"row":1,"table":32}]}',
    '{"committed":[{"now":[1],"row":1}]}', '{"committed":[{"now":null,"row":2,"table":0},{"now":null,"row":1,"table":0}]}',
    '{"committed":[{"now":null,"row":1,"table":0},{"now":null,"row":1,"table":0}]}', '{"committed":true}',
)
NO_STATUSES = (b"100 X", b"199 X", b"201 X", b"204 X", b"206 X", b"301 X", b"401 X", b"404 X", b"409 X", b"500 X", b"503 X", b"999 X")


def body_that_is_no_reply(chance, good):
    outcome = chance.choice(NO_OUTCOMES).encode()
    return chance.choice((
        b"", good[:chance.randrange(len(good))], good + b"x", good + good, b"[" + good + b"]", good[:-1] + b',"x":1}', b"null",
        b'{"connect":"main"}',
        b'{"made":null,"outcome":{"count":1}}', b'{"draws":[1],"made":null,"outcome":{"count":1}}',
        b'{"draws":[],"made":1,"outcome":{"count":1}}',
        b'{"draws":[{"row":1}],"made":null,"outcome":{"count":1}}', *[b'{"draws":[],"made":null,"outcome":%s}' % outcome] * 12,
    ))


def head_that_is_none(chance, body):
    first, length = b"HTTP/1.1 200 OK\r\n", b"Content-Length: %d\r\n" % len(body)
    return chance.choice((
        first + b"\r\n", first + b"A: b\r\n\r\n", first + length + length + b"\r\n", first + length + length.lower() + b"\r\n",
        first + b"Content-Length: +%d\r\n\r\n" % len(body), first + b"Content-Length: 99999999999\r\n\r\n",
        first + b"Content-Length: \r\n\r\n",
        first + b"Content-Length: 134217729\r\n\r\n", first + b"Content-Length: %011d\r\n\r\n" % len(body),
        b"HTTP/2 200 OK\r\n" + length + b"\r\n",
        b"POST /call HTTP/1.1\r\n" + length + b"\r\n", first + length + b"no field\r\n\r\n", first + length + b"X: y\r\n" * 64 + b"\r\n",
        first + length + b"A: " + b"q" * 9000, b"a" * 9000, first + b"Content-Length : %d\r\n\r\n" % len(body),
        first + b"Transfer-Encoding: chunked\r\n\r\n",
    )) + body


def random_fault(chance, reply):
    body = compact(plain_reply(NEVER_GIVEN if reply == BAD_REQUEST else reply))
    good, luck = answer_bytes(body), chance.random()
    if luck < 0.3:
        return Fault(good[:chance.choice((0, 1, len(good) - 1, len(good) - len(body), chance.randrange(len(good))))], True)
    if luck < 0.4:
        return Fault(chance.choice((b"hello\r\n\r\n", b"SSH-2.0-x\r\n", bytes(chance.randrange(256) for _ in range(40)))), True)
    if luck < 0.5:
        return Fault(answer_bytes(body, chance.choice(NO_STATUSES)))
    if luck < 0.75:
        return Fault(head_that_is_none(chance, body))
    return Fault(answer_bytes(body_that_is_no_reply(chance, body)))


# The server.


@dataclass
class Connection:
    number: int
    stream: socket.socket
    kept: bytes = b""
    place: int = 0
    failed: bool = False
    waiting: list = field(default_factory=list)


class Elsewhere:
    """Serves connections in one thread. The log has ("came", connection, place, bytes), ("answered", connection, place, answer),
    ("ended", connection) and ("strange", text)."""

    def __init__(self, answers, chance, holds_back=0.0):
        self.answers, self.chance, self.holds_back = answers, chance, holds_back
        self.log, self.connections = [], []
        self.selector = selectors.DefaultSelector()
        self.listener = socket.create_server((HOST, 0), backlog=128)
        self.port = self.listener.getsockname()[1]
        self.selector.register(self.listener, selectors.EVENT_READ, self.accept)

    def accept(self):
        stream, _ = self.listener.accept()
        stream.setsockopt(socket.IPPROTO_TCP, socket.TCP_NODELAY, 1)
        connection = Connection(len(self.connections), stream)
        self.connections.append(connection)
        self.selector.register(stream, selectors.EVENT_READ, lambda: self.read(connection))

    def end(self, connection):
        self.selector.unregister(connection.stream)
        connection.stream.close()

    def read(self, connection):
        try:
            data = connection.stream.recv(65536)
        except ConnectionResetError:
            data = b""
        if not data:
            self.log.append(("ended", connection.number))
            return self.end(connection)
        connection.kept += data
        if connection.failed or connection.waiting:
            return self.log.append(("strange", f"connection {connection.number}: bytes that nobody waits for: {data[:HEAD_LIMIT]!r}"))
        return self.take(connection)

    def take(self, connection):
        """Takes a request once it is whole."""
        if b"\r\n\r\n" not in connection.kept:
            return
        head = REQUEST.match(connection.kept)
        if not head:
            connection.failed = True
            return self.log.append(("strange", f"connection {connection.number}: no request: {connection.kept[:HEAD_LIMIT]!r}"))
        end = head.end() + int(head[1])
        if len(connection.kept) < end:
            return
        if len(connection.kept) > end:
            self.log.append(("strange", f"connection {connection.number}: bytes behind a request that is not answered"))
        request, connection.kept = connection.kept[:end], b""
        self.log.append(("came", connection.number, connection.place, request))
        answer = self.answers.answer(connection.number, connection.place, call_of(request[head.end():]))
        if self.chance.random() < self.holds_back:
            connection.waiting.append(answer)
        else:
            self.give(connection, answer)

    def give(self, connection, answer):
        self.log.append(("answered", connection.number, connection.place, answer))
        connection.place += 1
        try:
            if isinstance(answer, Fault):
                connection.failed = True
                connection.stream.sendall(answer.data)
                if answer.closes:
                    self.end(connection)
            else:
                connection.stream.sendall(bytes_of(self.chance, answer))
        except OSError:
            self.log.append(("strange", f"connection {connection.number}: it was closed before its answer"))

    def release(self):
        """Gives one of the answers that are held back."""
        waiting = [connection for connection in self.connections if connection.waiting]
        if waiting:
            connection = self.chance.choice(waiting)
            self.give(connection, connection.waiting.pop())

    def serve(self, process):
        """Serves until the program ends: its status and what it printed, or None where it does not end."""
        printed, until = [], time.monotonic() + PATIENCE
        ended = []
        self.selector.register(process.stdout, selectors.EVENT_READ, lambda: self.listen_to(process, printed, ended))
        while not ended and time.monotonic() < until:
            held = any(connection.waiting for connection in self.connections)
            ready = self.selector.select(0.001 if held else 1)
            for key, _ in ready:
                key.data()
            if held and not ready:
                self.release()
        if not ended:
            process.kill()
        process.stdout.close()
        process.stderr.close()
        status = process.wait()
        self.close()
        return (status, b"".join(printed)) if ended else None

    def listen_to(self, process, printed, ended):
        data = process.stdout.read1()
        printed.append(data)
        if not data:
            self.selector.unregister(process.stdout)
            ended.append(True)

    def close(self):
        """Hears what still came, and closes all."""
        while ready := self.selector.select(0):
            for key, _ in ready:
                key.data()
        for connection in self.connections:
            connection.stream.close()
        self.listener.close()
        self.selector.close()
