"""Captures and files that are spoiled on purpose.

Enters: a good capture, or the bytes of a good file. Leaves: the same, mostly no longer good.
"""
from outside.values import FAULTS, NULL, Image, Reply

FIELDS = (
    b"", b"0", b"00", b"1", b"-", b"-0", b"-1", b"2", b"16", b"17", b"33", b"64", b"65", b"1000", b"1001", b"549755813888", b"549755813889",
    b"1000000000000", b"1000000000001", b"4294967295", b"4294967296", b"18446744073709551615", b"18446744073709551616",
    b"9223372036854775807", b"9223372036854775808", b"-9223372036854775808", b"-9223372036854775809", b"[]", b"[-]", b"[i1]", b"[i1,]",
    b"[i-0]",
    b"[i01]", b"[t]", b"[t%41]", b"[t%2c]", b"[t%2C]", b"[t%FF]", b"[t%C3%A9]", b"[d0.0]", b"[d0.1]", b"[d4294967296.1]", b"[r0]",
    b"[r18446744073709551615]", b"[i1][i2]", b"[i1][]", b"rw", b"ro", b"null", b"notnull", b"int", b"text", b"seq", b"end", b">",
    b"refused",
    b"34", b"10", b"35", b"30", b"31", b"rows", b"count", b"committed", b"gone", b"1:0:gone", b"1:32:gone", b"1:31:gone", b"1:0:[]",
    b"1:0:[i1];1:0:[i1]", b"1:0:[i1];2:1:gone", b"2:0:[i1];1:0:gone", b"connect", b"sql", b"disconnect", b"tmain", b"t", b"select",
    b"savepoint", b"to", b"a" * 30, b"a" * 31, b"A", b"_a", b"a_", b"1a", b"id", b"session", b"start", b"level", b"row", b"col", b"table",
    b"svc", b"nextrow", b"sessions", b"r1", b"r01", b"i1", b"t" + b"a" * 1000, b"t" + b"a" * 1001, b"\r", b"\xff", b"\x00", b"marked",
    b"connected", b"rolledback", b"disconnected", b"images", b"same", b"shape", b"calls", b"report", b"100000", b"100001",
)
BYTES = b'0123456789 -rtd[],.%:;>\nabgz\r\x00A"'
PIECES = (b'"', b'""', b",", b"\n", b"\r", b"\r\n", b" ", b"\xff", b"\xef\xbb\xbf", b"\x00", b"a", b"A", b"0", b"-", b"+", b"\xc3\xa9")
STRANGE_IDS = (("row", 99999), ("draw", 0, 7777), ("row", 3), ("integer", 1), ("row", 2**40))
ALONE = (("marked",), ("connected",), ("rolledback",), ("disconnected",))


def other_fields(chance, data):
    """One or two fields of a line put in, taken out or exchanged, or the line doubled."""
    lines = data.split(b"\n")
    place = chance.randrange(len(lines))
    fields = lines[place].split(b" ")
    for _ in range(chance.choice((1, 1, 1, 2))):
        luck, at = chance.random(), chance.randrange(len(fields))
        if luck < 0.6:
            fields[at] = chance.choice(FIELDS)
        elif luck < 0.75:
            fields.insert(at, chance.choice(FIELDS))
        elif luck < 0.85 and len(fields) > 1:
            del fields[at]
        else:
            lines.insert(chance.randrange(len(lines) + 1), b" ".join(fields))
    lines[min(place, len(lines) - 1)] = b" ".join(fields)
    return b"\n".join(lines)


def other_bytes(chance, data):
    """A byte put in, taken out or exchanged, or the rest cut off."""
    if not data:
        return data
    luck, at, byte = chance.random(), chance.randrange(len(data)), bytes([chance.choice(BYTES)])
    if luck < 0.35:
        return data[:at] + byte + data[at + 1:]
    if luck < 0.6:
        return data[:at] + data[at + 1:]
    return data[:at] + byte + data[at:] if luck < 0.85 else data[:at]


def other_lines(chance, data):
    """A line put in, taken out, exchanged with another one or made longer."""
    lines, luck = data.split(b"\n"), chance.random()
    place, other = chance.randrange(len(lines)), chance.randrange(len(lines))
    if luck < 0.3:
        del lines[place]
    elif luck < 0.6:
        lines.insert(place, lines[place])
    elif luck < 0.8:
        lines[place], lines[other] = lines[other], lines[place]
    else:
        lines[place] += chance.choice((b" ", b"0", b"\r"))
    return b"\n".join(lines)


def spoiled(chance, data):
    return chance.choice((other_fields, other_fields, other_bytes, other_lines))(chance, data)


def spoiled_records(chance, data):
    """A file of records with some bytes put in, taken out or exchanged."""
    for _ in range(chance.choice((0, 1, 1, 2, 3))):
        at, luck, piece = chance.randrange(len(data) + 1), chance.random(), chance.choice(PIECES)
        if luck < 0.6:
            data = data[:at] + piece + data[at:]
        else:
            data = data[:at] + (b"" if luck < 0.8 else piece) + data[at + 1:]
    return data


def other_images(chance, images):
    images = list(images)
    if images:
        place = chance.randrange(len(images))
        if chance.random() < 0.5:
            del images[place]
        else:
            image = images[place]
            images[place] = Image(image.row, image.table, None if image.values else (NULL,))
    return tuple(images)


def other_outcome(chance, outcome):
    if outcome[0] == "count":
        return ("count", outcome[1] + 1)
    if outcome[0] == "refused":
        return ("refused", chance.choice(sorted(FAULTS - {34})))
    if outcome[0] == "rows" and outcome[1]:
        rows = list(outcome[1])
        chance.shuffle(rows)
        return ("rows", tuple(rows[1:] if chance.random() < 0.3 else rows))
    if outcome[0] == "committed":
        return ("committed", other_images(chance, outcome[1]))
    return chance.choice(ALONE)


def other_reply(chance, reply):
    luck = chance.random()
    if luck < 0.2:
        return Reply(reply.outcome, reply.draws, None if reply.made is not None and luck < 0.1 else (reply.made or 4) + 1)
    if luck < 0.3:
        return Reply(reply.outcome, (*reply.draws, ("draw", 0, chance.choice((1, 10, 11)))), reply.made)
    return Reply(other_outcome(chance, reply.outcome), reply.draws, reply.made)


def spoil_call(chance, captured, others):
    """One call of a capture made otherwise than it was."""
    luck = chance.random()
    if luck < 0.12:
        captured.stamp += chance.choice((1, -1)) if captured.stamp else 1
    elif luck < 0.2:
        captured.seen = max(0, captured.seen + chance.choice((1, -1)))
    elif luck < 0.28:
        captured.number = chance.choice((1, 2)) if captured.number is None else chance.choice((None, captured.number + 1))
    elif luck < 0.36:
        captured.began, captured.ended = captured.ended, captured.began
    elif luck < 0.42:
        captured.began = max(0, captured.began - chance.choice((1, 5, 50)))
    elif luck < 0.5 and captured.call[0] == "sql":
        captured.call = (*captured.call[:2], (*captured.call[2][:15], chance.choice(STRANGE_IDS)))
    elif luck < 0.56:
        captured.call = chance.choice(others).call
    elif luck < 0.62:
        captured.reply = chance.choice(others).reply
    else:
        captured.reply = other_reply(chance, captured.reply)


def spoil_capture(chance, sessions):
    """Spoils one or two calls where there are any."""
    calls = [captured for session in sessions for captured in session]
    for _ in range(chance.choice((1, 1, 2)) if calls else 0):
        spoil_call(chance, chance.choice(calls), calls)
