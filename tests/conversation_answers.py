"""What a made conversation comes to: the bytes of the answers, the calls that are recorded and those that are turned away.

It is written from the rules of requests, of JSON and of the texts in files alone.
"""
import json
import re

import small_server
from small_server import GREATEST, LEAST

LONGEST_HEAD, LONGEST_BODY, LONGEST_TEXT, LONGEST_READ = 8192, 65536, 1000, 8192
MOST_HEADERS, MOST_BINDS = 64, 16
MOST_ID, MOST_SEQUENCE = 2**64 - 1, 2**32 - 1
PHRASES = {200: "OK", 400: "Bad Request", 404: "Not Found", 405: "Method Not Allowed", 411: "Length Required",
           413: "Payload Too Large", 431: "Request Header Fields Too Large"}
TARGETS = {b"/call": b"POST", b"/session": b"GET"}

# A request head, with its parts: lines end in CR LF or LF, and empty lines may come first.
TOKEN = rb"[!#$%&'*+\-.^_`|~0-9A-Za-z]+"
FIELD = rb"(?:" + TOKEN + rb"):[\t\x20-\x7e\x80-\xff]*\r?\n"
HEAD = re.compile(rb"(?:\r?\n)*(" + TOKEN + rb") ([\x21-\x7e\x80-\xff]+) HTTP/1\.([01])\r?\n((?:" + FIELD + rb")*)\r?\n")
HEAD_END = re.compile(rb"\n\r?\n")
SHORT_RUN = 8


# Texts of the files.


def escaped(data, shown):
    """Bytes as text: those that are shown stand for themselves, the others are `%XX`."""
    return "".join(chr(byte) if chr(byte) in shown else f"%{byte:02X}" for byte in data)


LETTERS = "ABCDEFGHIJKLMNOPQRSTUVWXYZabcdefghijklmnopqrstuvwxyz0123456789"


def coded(data):
    """Bytes in the form of the program of cases: one that is not printable as `\\N;`, and a byte N times as `\\N*c;`."""
    runs = re.finditer(rb"([ -~])\1{%d,}|.|\n" % (SHORT_RUN - 1), data, re.DOTALL)
    return "".join(f"\\{len(run[0])}*{run[1].decode()};" if len(run[0]) > 1 else plain(run[0][0]) for run in runs)


def plain(byte):
    return chr(byte) if 32 <= byte < 127 and byte != 92 else f"\\{byte};"


def value_text(value):
    if value is None:
        return "-"
    if isinstance(value, tuple):
        return f"r{value[1]}" if value[0] == "row" else f"d{value[1]}.{value[2]}"
    return f"i{value}" if isinstance(value, int) else "t" + escaped(value.encode(), LETTERS + "_-.")


def values_text(values):
    return "[" + ",".join(map(value_text, values)) + "]"


def call_text(call):
    texts = ["t" + escaped(call[1].encode(), LETTERS + "_-.")] if len(call) > 1 else []
    return " ".join([call[0], *texts, *(values_text(binds) for binds in call[2:])])


def image_text(row, table, values):
    return f"{row}:{table}:" + ("gone" if values is None else values_text(values))


def outcome_text(outcome):
    word = outcome[0]
    if word == "rows":
        return "rows " + ("".join(map(values_text, outcome[1])) or "-")
    if word == "committed":
        return "committed " + (";".join(image_text(*image) for image in outcome[1]) or "-")
    return " ".join(map(str, outcome))


def reply_text(reply):
    outcome, draws, made = reply
    return f"{outcome_text(outcome)} {values_text(draws)} {'-' if made is None else f'r{made}'}"


# JSON.


def value_json(value):
    if isinstance(value, tuple):
        return {"row": value[1]} if value[0] == "row" else {"draw": value[2], "seq": value[1]}
    return value


def outcome_json(outcome):
    word = outcome[0]
    if word == "rows":
        return {word: [list(map(value_json, row)) for row in outcome[1]]}
    if word == "committed":
        return {word: [{"now": None if values is None else list(map(value_json, values)), "row": row, "table": table}
                       for row, table, values in outcome[1]]}
    return {word: outcome[1] if len(outcome) > 1 else True}


def compact(value):
    return json.dumps(value, separators=(",", ":"), sort_keys=True, ensure_ascii=False).encode()


def reply_json(reply):
    outcome, draws, made = reply
    return compact({"draws": list(map(value_json, draws)), "made": None if made is None else {"row": made},
                    "outcome": outcome_json(outcome)})


class NotOne(Exception):
    """The bytes are no call."""


def need(holds):
    if not holds:
        raise NotOne


def no_constant(_):
    raise NotOne


def whole_number(text):
    """`-0` is no whole number, and neither is one of many digits."""
    return int(text) if text != "-0" and len(text) < 30 else float("0")


def json_value(body):
    """The value of a JSON text, of which the last member of a key counts."""
    try:
        value = json.loads(body.decode(), parse_int=whole_number, parse_constant=no_constant)
        json.dumps(value, ensure_ascii=False).encode()
    except (ValueError, RecursionError) as cause:
        raise NotOne from cause
    return value


def text_of(value):
    need(isinstance(value, str) and len(value.encode()) <= LONGEST_TEXT)
    return value


def number_of(value, most):
    need(type(value) is int and 0 <= value <= most)
    return value


def bind_of(value):
    if isinstance(value, dict) and set(value) == {"row"}:
        return "row", number_of(value["row"], MOST_ID)
    if isinstance(value, dict):
        need(set(value) == {"draw", "seq"})
        return "draw", number_of(value["seq"], MOST_SEQUENCE), number_of(value["draw"], MOST_ID)
    if type(value) is int:
        need(LEAST <= value <= GREATEST)
        return value
    return None if value is None else text_of(value)


def call_of(body):
    """The call that a body spells."""
    value = json_value(body)
    need(isinstance(value, dict))
    keys = set(value)
    if keys == {"connect"}:
        return "connect", text_of(value["connect"])
    if keys == {"disconnect"}:
        need(value["disconnect"] is True)
        return ("disconnect",)
    need(keys in ({"sql"}, {"sql", "binds"}))
    binds = value.get("binds", [])
    need(isinstance(binds, list) and len(binds) <= MOST_BINDS)
    return "sql", text_of(value["sql"]), tuple(map(bind_of, binds))


# HTTP.


class Answered(Exception):
    """A request gets this answer, and the connection may close behind it."""

    def __init__(self, status, closes, body=b""):
        super().__init__(status)
        self.status, self.closes, self.body = status, closes, body


class NoRequest(Exception):
    """The input ends before a whole request."""


class Conversation:
    """What the bytes of one connection come to, with a server of its own."""

    def __init__(self, data, session=0):
        self.data, self.session = data, session
        self.server = small_server.Server()
        self.output, self.said, self.turned = b"", [], []
        closed = False
        while not closed:
            closed = self.request()
        if self.server.rights:
            self.say(("disconnect",))

    def request(self):
        """Answers one request. Whether the conversation ends."""
        try:
            self.closes = True
            method, target = self.read_request()
            status, body = self.answer(method, target)
            raise Answered(status, self.closes, body)
        except NoRequest:
            return True
        except Answered as answered:
            self.output += answer_text(answered)
            return answered.closes

    def read_request(self):
        """The head and the body, which leave the input. Gives the method and the target."""
        method, target, minor, fields = self.read_head()
        length = body_length(method, fields)
        if len(self.data) < length:
            raise NoRequest
        self.body, self.data = self.data[:length], self.data[length:]
        self.closes = minor == b"0" or any(value.lower() == b"close" for value in values_of(fields, b"connection"))
        return method, target

    def read_head(self):
        found = HEAD_END.search(self.data[:LONGEST_HEAD])
        if not found and len(self.data) < LONGEST_HEAD:
            raise NoRequest
        if not found:
            raise Answered(431, True)
        head = HEAD.fullmatch(self.data[: found.end()])
        fields = head and [line.split(b":", 1) for line in head[4].split(b"\n")[:-1]]
        if not head or len(fields) > MOST_HEADERS or not is_text(head[2]):
            raise Answered(400, True)
        self.data = self.data[found.end() :]
        return head[1], head[2], head[3], [(name.lower(), value.strip(b" \t\r")) for name, value in fields]

    def answer(self, method, target):
        """The status and the body of the answer to a whole request."""
        if target not in TARGETS:
            return 404, b""
        if method != TARGETS[target]:
            return 405, b""
        if target == b"/session":
            return 200, compact({"calls": len(self.said), "session": self.session})
        try:
            call = call_of(self.body)
        except NotOne:
            return 400, b""
        if not all(map(self.server.given, call[2] if call[0] == "sql" else ())):
            self.turned.append(call)
            return 400, b""
        return 200, reply_json(self.say(call))

    def say(self, call):
        reply = self.server.step(call)
        self.said.append((call, reply))
        return reply


def is_text(data):
    try:
        data.decode()
    except UnicodeDecodeError:
        return False
    return True


def values_of(fields, wanted):
    return [value for name, value in fields if name == wanted]


def body_length(method, fields):
    """How long the body is, or the answer to a head that does not tell it."""
    lengths = values_of(fields, b"content-length")
    if values_of(fields, b"transfer-encoding") or (method == b"POST" and not lengths):
        raise Answered(411, True)
    if len(lengths) > 1 or not all(re.fullmatch(rb"[0-9]{1,10}", length) for length in lengths):
        raise Answered(400, True)
    length = int(lengths[0]) if lengths else 0
    if length > LONGEST_BODY:
        raise Answered(413, True)
    return length


def answer_text(answered):
    lines = [f"HTTP/1.1 {answered.status} {PHRASES[answered.status]}"]
    lines += ["Content-Type: application/json"] if answered.status == 200 else []
    lines += [f"Content-Length: {len(answered.body)}"]
    lines += ["Connection: close"] if answered.closes else []
    return "".join(line + "\r\n" for line in lines + [""]).encode() + answered.body


def came_of(number, data):
    """The bytes that come of a client where the read with this number, from 0, fails."""
    return data[: LONGEST_READ * number]


def expected_line(number, data):
    """What a `serve` of one connection comes to whose read with this number fails, as the program of cases tells it."""
    conversation = Conversation(came_of(number, data))
    lines, commits = ["session 1 0"], 0
    for stamp, (call, reply) in enumerate(conversation.said):
        numbered = reply[0][0] == "committed" and bool(reply[0][1])
        lines.append(f"{stamp} 0 0 {commits} {commits + 1 if numbered else '-'} {call_text(call)} > {reply_text(reply)}")
        commits += numbered
    session = "".join(line + "\n" for line in [*lines, "end"])
    told = f"0 served 1 connections, {len(conversation.said)} calls\n cap/session-000.cap={session} cap/start.cap={small_server.START}"
    return f"{told} <{conversation.output.decode()}> @7080".replace("\n", "/").replace("\r", "^")
