"""The files of a capture and of a run: start, session, journal and report.

Enters: the bytes of a file. Leaves: what they tell, or `BadLine` with the number of the first bad line; and the bytes from what they tell.
"""
import re
from dataclasses import dataclass
from typing import Optional

from outside.schema import (
    COLUMN_LIMIT, NEXT_LIMIT, ROW_LIMIT, SEQUENCE_LIMIT, SERVICE_LIMIT, SESSION_LIMIT, TEXT_COLUMN_LIMIT, Column, Row, Start, Table,
    key_of, position, takes,
)
from outside.statements import KEYWORDS
from outside.values import (
    GREATEST_SEQUENCE, TABLE_LIMIT, Malformed, Reply, read_call, read_integer, read_number, read_reply, read_values, write_call,
    write_reply,
    write_values,
)

NAME = re.compile(rb"[a-z][a-z0-9_]{0,29}")
TIME_LIMIT = 10**12
STAMP_LIMIT = 2**32 - 1
CALLS_OF_A_REPORT = 100_000
FILE_LIMIT, FILES_LIMIT = 67_108_864, 268_435_456
MODES = ("off", "scn", "object", "order", "fence")
CLASSES = ("new-error", "gone-error", "mutated-error", "rows-modified", "rows-fetched", "row-contents", "images", "shape")


class BadLine(Exception):
    """The number of the first bad line, from 1."""

    def __init__(self, line):
        super().__init__(line)
        self.line = line


class Refusal(Exception):
    """A command's end: its status and its line."""

    def __init__(self, status, line):
        super().__init__(status, line)
        self.status, self.line = status, line


@dataclass
class CapturedCall:
    """A call of a capture; its number is None where it is no numbered commit."""

    session: int
    place: int
    stamp: int
    began: int
    ended: int
    seen: int
    number: Optional[int]
    call: tuple
    reply: Reply


class Lines:
    """The lines of a file, read one after the other."""

    def __init__(self, data):
        *self.lines, self.rest = data.split(b"\n")
        self.place = 0

    def bad(self):
        raise BadLine(self.place + 1)

    def line(self):
        if self.place >= len(self.lines):
            self.bad()
        return self.lines[self.place]

    def fields(self):
        return self.line().split(b" ")

    def step(self):
        self.place += 1

    def need(self, holds):
        if not holds:
            self.bad()

    def end(self):
        self.need(self.line() == b"end")
        self.step()
        self.need(self.place == len(self.lines) and not self.rest)


def read_name(data):
    if not NAME.fullmatch(data) or data.upper().decode() in KEYWORDS:
        raise Malformed
    return data


def reading(read):
    """A reader in which bytes that are not what they should be make the line bad where it stands."""
    def reader(data, *more):
        lines = Lines(data)
        try:
            return read(lines, *more)
        except Malformed:
            raise BadLine(lines.place + 1) from None
    return reader


# The start.


def new_name(named, data):
    name = read_name(data)
    if position(named, name) is not None:
        raise Malformed
    return name


def sequence_line(start, fields):
    if len(fields) != 3 or len(start.sequences) == SEQUENCE_LIMIT:
        raise Malformed
    start.sequences.append((new_name(start.sequences, fields[1]), read_number(fields[2], 1, NEXT_LIMIT)))


def service_line(start, fields):
    if len(fields) != 3 or len(start.services) == SERVICE_LIMIT or fields[2] not in (b"rw", b"ro"):
        raise Malformed
    start.services.append((new_name(start.services, fields[1]), fields[2].decode()))


def table_line(start, fields):
    if len(fields) != 2 or len(start.tables) == TABLE_LIMIT:
        raise Malformed
    start.tables.append(Table(new_name(start.tables, fields[1]), ()))


def column_kind(start, fields):
    if len(fields) == 3 and fields[0] == b"int":
        least, greatest = read_integer(fields[1]), read_integer(fields[2])
        if least <= greatest:
            return ("integer", least, greatest)
    elif len(fields) == 2 and fields[0] == b"text":
        return ("text", read_number(fields[1], 1, TEXT_COLUMN_LIMIT))
    elif len(fields) == 2 and fields[0] == b"seq":
        sequence = start.sequence_number(fields[1])
        if sequence is not None:
            return ("draw", sequence)
    raise Malformed


def column_line(start, fields):
    table = start.tables[-1] if start.tables else None
    if table is None or len(table.columns) == COLUMN_LIMIT or len(fields) < 3 or fields[-1] not in (b"notnull", b"null"):
        raise Malformed
    name, not_null = new_name(table.columns, fields[1]), fields[-1] == b"notnull"
    if not table.columns and not not_null:
        raise Malformed
    column = Column(name, column_kind(start, fields[2:-1]), not_null)
    start.tables[-1] = Table(table.name, table.columns + (column,))


def row_line(start, fields, keys):
    if len(fields) != 4 or len(start.rows) == ROW_LIMIT:
        raise Malformed
    number, table, values = read_number(fields[1], 1), read_number(fields[2]), read_values(fields[3])
    if (start.rows and start.rows[-1].number >= number) or table >= len(start.tables):
        raise Malformed
    columns = start.tables[table].columns
    if len(values) != len(columns) or not all(takes(start, column, value) for column, value in zip(columns, values)):
        raise Malformed
    key = key_of(start.level, table, values)
    if key in keys:
        raise Malformed
    keys.add(key)
    start.rows.append(Row(number, table, values))


def version_and_level(lines):
    numbers = []
    for word in (b"start", b"level"):
        lines.need(lines.line() in (word + b" 1", word + b" 2"))
        numbers.append(int(lines.line()[-1:]))
        lines.step()
    return Start(*numbers)


# Which lines may come, in this order; `col` stands among the tables.
ORDER_OF_LINES = {b"seq": 0, b"svc": 1, b"table": 2, b"col": 2, b"row": 3, b"nextrow": 4}


@reading
def read_start(lines):
    """The start, and its number of sessions."""
    start, reached, keys = version_and_level(lines), 0, set()
    makers = {b"seq": sequence_line, b"svc": service_line, b"table": table_line, b"col": column_line}
    while True:
        fields = lines.fields()
        stage = ORDER_OF_LINES.get(fields[0], -1)
        bare = bool(start.tables) and not start.tables[-1].columns
        lines.need(stage >= reached and (not bare or fields[0] == b"col"))
        reached = stage
        if fields[0] == b"nextrow":
            break
        if fields[0] == b"row":
            row_line(start, fields, keys)
        else:
            makers[fields[0]](start, fields)
        lines.step()
    lines.need(len(fields) == 2)
    start.next_row = read_number(fields[1], 1, NEXT_LIMIT)
    lines.need(not start.rows or start.rows[-1].number < start.next_row)
    lines.step()
    fields = lines.fields()
    lines.need(len(fields) == 2 and fields[0] == b"sessions")
    sessions = read_number(fields[1], 0, SESSION_LIMIT)
    lines.step()
    lines.end()
    return start, sessions


def write_column(start, column):
    nulls, kind = b"notnull" if column.not_null else b"null", column.kind
    if kind[0] == "integer":
        return b"col %s int %d %d %s" % (column.name, kind[1], kind[2], nulls)
    if kind[0] == "text":
        return b"col %s text %d %s" % (column.name, kind[1], nulls)
    return b"col %s seq %s %s" % (column.name, start.sequences[kind[1]][0], nulls)


def write_start(start, sessions):
    lines = [b"start %d" % start.version, b"level %d" % start.level]
    lines += [b"seq %s %d" % sequence for sequence in start.sequences]
    lines += [b"svc %s %s" % (name, rights.encode()) for name, rights in start.services]
    for table in start.tables:
        lines.append(b"table " + table.name)
        lines += [write_column(start, column) for column in table.columns]
    lines += [b"row %d %d %s" % (row.number, row.table, write_values(row.values)) for row in start.rows]
    return joined(lines + [b"nextrow %d" % start.next_row, b"sessions %d" % sessions, b"end"])


def joined(lines):
    return b"\n".join(lines) + b"\n"


# A session.


def read_captured(fields, session, place, version):
    if len(fields) < 6 or b">" not in fields[5:]:
        raise Malformed
    middle = fields.index(b">", 5)
    return CapturedCall(
        session, place, read_number(fields[0], 0, STAMP_LIMIT), read_number(fields[1], 0, TIME_LIMIT),
        read_number(fields[2], 0, TIME_LIMIT),
        read_number(fields[3]), None if fields[4] == b"-" else read_number(fields[4], 1), read_call(fields[5:middle]),
        read_reply(fields[middle + 1:], version),
    )


@reading
def read_session(lines, session, version):
    lines.need(lines.line() == b"session %d %d" % (version, session))
    lines.step()
    calls = []
    while lines.line() != b"end":
        captured = read_captured(lines.fields(), session, len(calls), version)
        lines.need(not calls or calls[-1].stamp < captured.stamp)
        calls.append(captured)
        lines.step()
    lines.end()
    return calls


def write_captured(captured):
    return b"%d %d %d %d %s %s > %s" % (
        captured.stamp, captured.began, captured.ended, captured.seen, b"-" if captured.number is None else b"%d" % captured.number,
        write_call(captured.call), write_reply(captured.reply),
    )


def write_session(calls, session, version):
    return joined([b"session %d %d" % (version, session)] + [write_captured(captured) for captured in calls] + [b"end"])


def session_name(session):
    return "session-%03d.cap" % session


def write_capture(start, sessions):
    """The files of a capture, by name."""
    files = {"start.cap": write_start(start, len(sessions))}
    for number, calls in enumerate(sessions):
        files[session_name(number)] = write_session(calls, number, start.version)
    return files


def read_capture(read, folder):
    """The start and the calls of each session. `read` gives the bytes of a named file, or None."""
    taken = 0

    def whole(name, reader, *more):
        nonlocal taken
        data = read(name)
        if data is None:
            raise Refusal(4, b"missing: " + name.encode())
        taken += len(data)
        if len(data) > FILE_LIMIT or taken > FILES_LIMIT:
            raise Refusal(8, b"too long: " + name.encode())
        try:
            return reader(data, *more)
        except BadLine as bad:
            raise Refusal(3, b"bad capture: %s line %d" % (name.encode(), bad.line)) from None

    start, count = whole(folder + "/start.cap", read_start)
    return start, [whole(folder + "/" + session_name(number), read_session, number, start.version) for number in range(count)]


# A journal.


@reading
def read_journal(lines):
    """The mode, and the events: ("s", stamp, pause) or ("a", stamp, reply)."""
    first = lines.line()
    mode = first[len(b"journal 1 "):].decode("latin-1")
    lines.need(first.startswith(b"journal 1 ") and mode in MODES)
    lines.step()
    events = []
    while lines.line() != b"end":
        fields = lines.fields()
        lines.need(len(fields) >= 3 and fields[0] in (b"s", b"a"))
        stamp = read_number(fields[1], 0, STAMP_LIMIT)
        if fields[0] == b"s":
            lines.need(len(fields) == 3)
            events.append(("s", stamp, read_number(fields[2])))
        else:
            events.append(("a", stamp, read_reply(fields[2:])))
        lines.step()
    lines.end()
    return mode, events


# A report.


@dataclass
class Report:
    """How many calls there are, and of those that differ the stamp, the session, the place and the class."""

    calls: int
    lines: list

    def write(self):
        counts = [b"report 1", b"calls %d" % self.calls, b"same %d" % (self.calls - len(self.lines))]
        counts += [b"%s %d" % (word.encode(), sum(line[3] == word for line in self.lines)) for word in CLASSES]
        return joined(counts + [b"%d %d %d %s" % (*line[:3], line[3].encode()) for line in self.lines] + [b"end"])


def count_line(lines, word, greatest):
    fields = lines.fields()
    lines.need(len(fields) == 2 and fields[0] == word.encode())
    count = read_number(fields[1], 0, greatest)
    lines.step()
    return count


@reading
def read_report(lines):
    lines.need(lines.line() == b"report 1")
    lines.step()
    report = Report(count_line(lines, "calls", CALLS_OF_A_REPORT), [])
    counts = {word: count_line(lines, word, 2**64 - 1) for word in ("same",) + CLASSES}
    while lines.line() != b"end":
        fields = lines.fields()
        lines.need(len(fields) == 4 and fields[3].decode("latin-1") in CLASSES)
        stamp = read_number(fields[0], 0, STAMP_LIMIT)
        lines.need(stamp < report.calls and (not report.lines or report.lines[-1][0] < stamp))
        session, place = (read_number(data, 0, GREATEST_SEQUENCE) for data in fields[1:3])
        report.lines.append((stamp, session, place, fields[3].decode()))
        lines.step()
    lines.need(counts.pop("same") == report.calls - len(report.lines))
    lines.need(all(count == sum(line[3] == word for line in report.lines) for word, count in counts.items()))
    lines.end()
    return report
