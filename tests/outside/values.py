"""Values, calls and replies.

Enters: the bytes of a field of a file, or a value, call or reply. Leaves: the one from the other; `Malformed` where bytes are none.
A value is a tuple that begins with its kind: ("null",), ("integer", 5), ("text", b"a"), ("row", 3), ("draw", sequence, number).
A call is ("connect", service), ("sql", text, binds) or ("disconnect",). An outcome is a tuple that begins with its word.
"""
import re
from typing import NamedTuple, Optional

NULL = ("null",)
GREATEST_NUMBER = 2**64 - 1
LEAST_INTEGER, GREATEST_INTEGER = -(2**63), 2**63 - 1
GREATEST_SEQUENCE = 2**32 - 1
TEXT_LIMIT = 1000
BIND_LIMIT = 16
TABLE_LIMIT = 32
FAULTS = frozenset((10, 11, 12, 13, 14, 15, 16, 20, 21, 22, 23, 24, 25, 26, 27, 28, 29, 32, 33, 34))
NO_SUCH_SAVEPOINT = 34
WORDS_ALONE = (b"rolledback", b"marked", b"connected", b"disconnected")

NUMBER = re.compile(rb"0|[1-9][0-9]{0,19}")
PLAIN = frozenset(b"ABCDEFGHIJKLMNOPQRSTUVWXYZabcdefghijklmnopqrstuvwxyz0123456789_-.")
ESCAPED = re.compile(rb"%([0-9A-F]{2})")
SPELLED_TEXT = re.compile(rb"t(?:[A-Za-z0-9_\-.]|%[0-9A-F]{2})*")
ESCAPES = [bytes([byte]) if byte in PLAIN else b"%%%02X" % byte for byte in range(256)]


class Malformed(Exception):
    """Bytes that are not what they should be."""


class Reply(NamedTuple):
    """What a call was answered; `made` is a row number or None."""

    outcome: tuple
    draws: tuple
    made: Optional[int]


class Image(NamedTuple):
    """What a commit left of a row; no values where it is gone."""

    row: int
    table: int
    values: Optional[tuple]


def refusal(fault, draws=()):
    return Reply(("refused", fault), tuple(draws), None)


def is_id(value):
    return value[0] in ("row", "draw")


def is_text(data):
    """Whether bytes can stand in a text."""
    if len(data) > TEXT_LIMIT:
        return False
    try:
        data.decode("utf-8")
    except UnicodeDecodeError:
        return False
    return True


def read_number(data, least=0, greatest=GREATEST_NUMBER):
    if not NUMBER.fullmatch(data):
        raise Malformed
    number = int(data)
    if not least <= number <= greatest:
        raise Malformed
    return number


def read_integer(data):
    number = -read_number(data[1:], 1) if data[:1] == b"-" else read_number(data)
    if not LEAST_INTEGER <= number <= GREATEST_INTEGER:
        raise Malformed
    return number


def unescaped(match):
    byte = int(match.group(1), 16)
    if byte in PLAIN:
        raise Malformed
    return bytes([byte])


def read_text(data):
    if not SPELLED_TEXT.fullmatch(data):
        raise Malformed
    text = ESCAPED.sub(unescaped, data[1:])
    if not is_text(text):
        raise Malformed
    return text


def write_text(text):
    return b"t" + b"".join([ESCAPES[byte] for byte in text])


def read_value(data):
    if data == b"-":
        return NULL
    letter = data[:1]
    if letter == b"i":
        return ("integer", read_integer(data[1:]))
    if letter == b"t":
        return ("text", read_text(data))
    if letter == b"r":
        return ("row", read_number(data[1:]))
    if letter == b"d":
        parts = data[1:].split(b".")
        if len(parts) == 2:
            return ("draw", read_number(parts[0], 0, GREATEST_SEQUENCE), read_number(parts[1]))
    raise Malformed


def write_value(value):
    kind = value[0]
    if kind == "null":
        return b"-"
    if kind == "integer":
        return b"i%d" % value[1]
    if kind == "text":
        return write_text(value[1])
    if kind == "row":
        return b"r%d" % value[1]
    return b"d%d.%d" % (value[1], value[2])


def read_values(data):
    if len(data) < 2 or data[:1] != b"[" or data[-1:] != b"]":
        raise Malformed
    if data == b"[]":
        return ()
    return tuple(read_value(part) for part in data[1:-1].split(b","))


def write_values(values):
    return b"[" + b",".join([write_value(value) for value in values]) + b"]"


def read_row(data):
    values = read_values(data)
    if not values:
        raise Malformed
    return values


def read_rows(data):
    if data == b"-":
        return ()
    if len(data) < 3 or data[:1] != b"[" or data[-1:] != b"]":
        raise Malformed
    return tuple(read_row(b"[" + part + b"]") for part in data[1:-1].split(b"]["))


def write_rows(rows):
    return b"".join([write_values(row) for row in rows]) if rows else b"-"


def read_images(data):
    if data == b"-":
        return ()
    images = []
    for part in data.split(b";"):
        fields = part.split(b":")
        if len(fields) != 3:
            raise Malformed
        row, table = read_number(fields[0]), read_number(fields[1], 0, TABLE_LIMIT - 1)
        if images and images[-1].row >= row:
            raise Malformed
        images.append(Image(row, table, None if fields[2] == b"gone" else read_row(fields[2])))
    return tuple(images)


def write_images(images):
    if not images:
        return b"-"
    return b";".join([
        b"%d:%d:%s" % (image.row, image.table, b"gone" if image.values is None else write_values(image.values)) for image in images
    ])


def read_fault(data, version):
    fault = read_number(data)
    if fault not in FAULTS or (fault == NO_SUCH_SAVEPOINT and version == 1):
        raise Malformed
    return fault


def read_outcome(fields, version):
    """The outcome, and how many fields it took."""
    word = fields[0] if fields else b""
    if word in WORDS_ALONE:
        return (word.decode(),), 1
    if len(fields) < 2:
        raise Malformed
    if word == b"rows":
        return ("rows", read_rows(fields[1])), 2
    if word == b"count":
        return ("count", read_number(fields[1])), 2
    if word == b"committed":
        return ("committed", read_images(fields[1])), 2
    if word == b"refused":
        return ("refused", read_fault(fields[1], version)), 2
    raise Malformed


def read_reply(fields, version=2):
    outcome, taken = read_outcome(fields, version)
    if len(fields) != taken + 2:
        raise Malformed
    draws = read_values(fields[taken])
    if any(value[0] != "draw" for value in draws):
        raise Malformed
    made = fields[taken + 1]
    if made == b"-":
        return Reply(outcome, draws, None)
    if made[:1] != b"r":
        raise Malformed
    return Reply(outcome, draws, read_number(made[1:]))


def write_reply(reply):
    outcome = reply.outcome
    text = outcome[0].encode()
    if outcome[0] == "rows":
        text += b" " + write_rows(outcome[1])
    elif outcome[0] == "committed":
        text += b" " + write_images(outcome[1])
    elif len(outcome) == 2:
        text += b" %d" % outcome[1]
    return b"%s %s %s" % (text, write_values(reply.draws), b"-" if reply.made is None else b"r%d" % reply.made)


def read_call(fields):
    if len(fields) == 2 and fields[0] == b"connect":
        return ("connect", read_text(fields[1]))
    if len(fields) == 3 and fields[0] == b"sql":
        binds = read_values(fields[2])
        if len(binds) <= BIND_LIMIT:
            return ("sql", read_text(fields[1]), binds)
    if fields == [b"disconnect"]:
        return ("disconnect",)
    raise Malformed


def write_call(call):
    if call[0] == "connect":
        return b"connect " + write_text(call[1])
    if call[0] == "sql":
        return b"sql " + write_text(call[1]) + b" " + write_values(call[2])
    return b"disconnect"


def given_ids(reply):
    """The ids that a reply gave."""
    return list(reply.draws) + ([] if reply.made is None else [("row", reply.made)])
