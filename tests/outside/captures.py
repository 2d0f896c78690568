"""Random captures, remap files and change files.

Enters: a source of chance and what kind of capture is wanted. Leaves: a start, the calls of its sessions as the server answers them, and
bytes of files.
"""
from dataclasses import dataclass

from outside.files import CapturedCall
from outside.legality import wrote_something
from outside.schema import NEXT_LIMIT, SERVICE_LIMIT, Column, Row, Start, Table, key_of
from outside.sentences import INTEGERS, SPACED, TEXTS, Taste, Writer, fitting_value
from outside.server import Server
from outside.values import BIND_LIMIT, GREATEST_INTEGER, LEAST_INTEGER, NULL, TEXT_LIMIT, given_ids, is_id

ALL_INTEGERS = (LEAST_INTEGER, GREATEST_INTEGER)
RANGES = ((0, 5), (1, 4), (-3, 3), ALL_INTEGERS, ALL_INTEGERS, (0, 100), (-(10**6), 10**6), (5, 5))
STRANGE_SERVICES = (b"main", b"report", b"test", b"nosuch", b"", b"MAIN", b"x y", b't,"')
KEPT_TEXTS = 24


@dataclass
class Shape:
    """What kind of capture is wanted. Themes: holds, spaces, draws or none."""

    calls: int
    sessions: int
    theme: str = ""
    calm: bool = False
    taste: Taste = Taste()
    again: float = 0.6
    crowded: bool = False


def random_shape(chance, calls, sessions, theme=None, likes=None, **more):
    """A shape of so many calls and sessions; what it likes are parts of its taste."""
    theme = chance.choice(("", "", "", "spaces", "draws", "holds", "holds")) if theme is None else theme
    taste = Taste(texts=SPACED if theme == "spaces" else TEXTS, small_numbers=0.68 if theme == "holds" else 0.55, **(likes or {}))
    return Shape(calls, sessions, theme, taste=taste, crowded=taste.crowded, **more)


# The start.


def random_start(chance, shape):
    names = chance.sample((b"s", b"q", b"a", b"w", b"z_9"), chance.choice((0, 1, 1, 2, 3)))
    start = Start(1 if chance.random() < 0.25 else 2, chance.choice((1, 1, 2)))
    start.sequences = [(name, chance.choice((1, 1, 5, 10, 100, 100, NEXT_LIMIT if chance.random() < 0.2 else 100))) for name in names]
    start.services = random_services(chance, shape)
    count = 1 if shape.theme in ("holds", "spaces") else chance.choice((1, 1, 2, 2, 3))
    for name in chance.sample((b"t", b"u", b"s", b"a", b"t1"), count):
        start.tables.append(Table(name, random_columns(chance, shape, start)))
    add_rows(chance, shape, start)
    return start


def random_services(chance, shape):
    if shape.calm:
        return [(b"main", "rw")] + ([(b"rep", "ro")] if chance.random() < 0.2 else [])
    names = chance.sample((b"main", b"rep", b"te", b"x", b"m2"), chance.choice((0, 1, 2, 2, 3, 3, 4)))
    services = [(name, chance.choice(("rw", "rw", "rw", "ro"))) for name in names]
    return services if b"main" in names or chance.random() < 0.03 else [(b"main", "rw"), *services]


def random_columns(chance, shape, start):
    names = chance.sample((b"a", b"b", b"c", b"d", b"e_", b"x1", b"t"), chance.choice((1, 2, 3, 3, 4)))
    return tuple(
        Column(name, column_kind(chance, shape, start, place), place == 0 or chance.random() < 0.3) for place, name in enumerate(names))


def column_kind(chance, shape, start, place):
    word = chance.choice(("integer", "integer", "text", "draw") if start.sequences else ("integer", "integer", "text"))
    if place == 0 and (shape.theme == "holds" or shape.crowded or chance.random() < 0.5):
        word = "integer"
    elif place == 0 and shape.theme == "spaces":
        word = "text"
    elif shape.theme == "draws" and start.sequences and chance.random() < 0.5:
        word = "draw"
    if word == "text":
        return ("text", chance.choice((2, 3, 3, 5) if shape.theme == "spaces" else (1, 2, 3, 5, 1000)))
    if word == "draw":
        return ("draw", chance.randrange(len(start.sequences)))
    if place == 0 and shape.crowded:
        return ("integer", 0, 100_000)
    return ("integer", *chance.choice(((0, 5), (0, 9), (-1000, 1000)) if shape.theme == "holds" else RANGES))


def add_rows(chance, shape, start):
    number, keys = 3 if shape.crowded else chance.choice((1, 1, 1, 5, 1000, NEXT_LIMIT - 40)), set()
    for key in range(chance.choice((998, 999, 1000, 1001, 1002)) if shape.crowded else chance.choice((0, 1, 2, 3, 4, 6, 9))):
        table = 0 if shape.crowded else chance.randrange(len(start.tables))
        values = tuple(start_value(chance, shape, start, column) for column in start.tables[table].columns)
        if shape.crowded:
            values = (("integer", key), *values[1:])
        if None in values or key_of(start.level, table, values) in keys:
            continue
        keys.add(key_of(start.level, table, values))
        start.rows.append(Row(number, table, values))
        number += 1 if shape.crowded else chance.choice((1, 1, 1, 2, 3))
    start.next_row = min(number + chance.choice((0, 0, 0, 1, 5)), NEXT_LIMIT)


def start_value(chance, shape, start, column):
    """A value that the column takes, or None where there is none."""
    if not column.not_null and chance.random() < 0.2:
        return NULL
    if column.kind[0] != "draw":
        return fitting_value(chance, shape.taste.texts, column)
    following = start.sequences[column.kind[1]][1]
    if following == 1:
        return None if column.not_null else NULL
    return ("draw", column.kind[1], chance.randint(max(1, following - 6), following - 1))


# The calls.


class Clients:
    """Sessions that make random calls on a server."""

    def __init__(self, chance, shape):
        self.chance, self.shape = chance, shape
        self.start = self.make_start()
        self.server = Server(self.start)
        self.given = self.start.ids()
        self.ids = sorted(self.given)
        self.texts = []

    def make_start(self):
        return random_start(self.chance, self.shape)

    def call(self, session):
        """A random call of a session; it may bind an id that nobody gave."""
        connected, luck = self.server.session(session).rights is not None, self.chance.random()
        if self.shape.calm and not connected:
            return ("connect", b"main" if luck < 0.95 else self.start.services[-1][0])
        limit = 0.008 if self.shape.calm else 0.015
        if luck < (limit if connected else 0.9):
            return self.connect()
        if luck < (limit + 0.02 if connected else 0.92):
            return ("disconnect",)
        return self.text_again() if self.texts and self.chance.random() < self.shape.again else self.new_text()

    def connect(self):
        luck, services = self.chance.random(), [name for name, _ in self.start.services]
        writable = [name for name, rights in self.start.services if rights == "rw"]
        if luck > 0.9 or not services:
            return ("connect", self.chance.choice(STRANGE_SERVICES))
        return ("connect", (writable or services)[0] if luck < 0.55 else self.chance.choice(services))

    def new_text(self):
        while True:
            writer = Writer(self.chance, self.shape.taste, self.start, self.server, self.ids)
            text = self.respaced(writer.statement()).encode()
            if len(text) <= TEXT_LIMIT:
                break
        binds = writer.binds
        if binds and self.chance.random() < 0.02:
            binds.pop()
        if len(binds) < BIND_LIMIT and self.chance.random() < 0.02:
            binds.append(self.chance.choice((NULL, ("integer", 1))))
        self.texts.append((text, tuple(binds)))
        if len(self.texts) > KEPT_TEXTS:
            self.texts.pop(self.chance.randrange(KEPT_TEXTS // 2))
        return ("sql", text, tuple(binds))

    def respaced(self, text):
        if self.chance.random() < 0.05:
            text += self.chance.choice((";", " ;", " "))
        if self.chance.random() < 0.05:
            text = self.chance.choice((" ", "\t", "\n", "\r\n")) + text.replace(" ", self.chance.choice(("  ", "\t", " \r\n")), 2)
        return text

    def text_again(self):
        text, binds = self.chance.choice(self.texts)
        return ("sql", text, tuple(value if self.chance.random() < 0.3 else self.instead_of(value) for value in binds))

    def instead_of(self, value):
        if value[0] == "integer":
            return ("integer", self.chance.choice((0, 1, 2, 3, 4, 5, 1, 2, 3, 7, 100, *INTEGERS[-8:])))
        if value[0] == "text":
            return ("text", self.chance.choice(self.shape.taste.texts))
        width = 2 if value[0] == "draw" else 1
        known = [other for other in self.ids if is_id(value) and other[:width] == value[:width]]
        return self.chance.choice(known) if known else value

    def binds_a_stranger(self, call):
        return call[0] == "sql" and any(is_id(value) and value not in self.given for value in call[2])

    def answer(self, session, call):
        reply = self.server.answer(session, call)
        new = [identity for identity in given_ids(reply) if identity not in self.given]
        self.given.update(new)
        self.ids.extend(new)
        return reply

    def record(self):
        """The calls of each session of a legal capture."""
        chance, sessions = self.chance, [[] for _ in range(self.shape.sessions)]
        clock, commits, ended, session = chance.choice((0, 0, 5, 300)), 0, [0] * len(sessions), 0
        for stamp in range(self.shape.calls if sessions else 0):
            if chance.random() < 0.6:
                session = chance.randrange(len(sessions))
            while self.binds_a_stranger(call := self.call(session)):
                pass
            reply = self.answer(session, call)
            clock += chance.choice((0, 1, 3, 20))
            began = max(ended[session], clock - chance.choice((0, 0, 5)))
            ended[session] = began + chance.choice((0, 1, 2, 7))
            wrote = wrote_something(reply)
            sessions[session].append(CapturedCall(
                session, len(sessions[session]), stamp, began, ended[session], commits, commits + 1 if wrote else None, call, reply))
            commits += wrote
        return sessions


class Markers(Clients):
    """Sessions of which the first changes up to all rows of a table within one transaction, and sets many savepoints between."""

    def __init__(self, chance, shape, rows):
        self.rows, self.names = rows, chance.choice((3, 40, 1000))
        self.level, self.has_texts = chance.choice((1, 2)), chance.random() < 0.6
        super().__init__(chance, shape)
        self.has_begun = False

    def key(self, number):
        """The key of a row: texts that differ by a space at the end are two at level 1, and one at level 2."""
        if not self.has_texts:
            return ("integer", number)
        return ("text", b"k%d" % (number // 2) + b" " * (number % 2) if self.level == 1 else b"k%d" % number)

    def make_start(self):
        kind = ("text", 9) if self.has_texts else ("integer", -(10**6), 10**6)
        columns = (Column(b"id", kind, True), Column(b"n", ("integer", *ALL_INTEGERS), False))
        start = Start(2, self.level, services=[(b"main", "rw")], tables=[Table(b"t", columns)])
        start.rows = [Row(key + 1, 0, (self.key(key), ("integer", key % 7))) for key in range(self.rows)]
        start.next_row = self.rows + 1
        return start

    def call(self, session):
        if self.server.session(session).rights is None:
            return ("connect", b"main")
        if session == 0 and not self.has_begun:
            self.has_begun = True
            return ("sql", b"UPDATE t SET n = n + 1", ())
        return self.marking() if session == 0 else self.beside()

    def key_there(self):
        word, key = self.key(self.chance.randrange(self.rows + 3))
        return (word, key + b" " * self.chance.randrange(2) if self.has_texts and self.level == 2 else key)

    def marking(self):
        """A savepoint, a step back to one, or a change."""
        luck, name = self.chance.random(), b"p%d" % self.chance.randrange(self.names)
        texts = ((0.45, b"SAVEPOINT " + name), (0.55, b"ROLLBACK TO " + name), (0.56, b"COMMIT"), (0.565, b"ROLLBACK"))
        for share, text in texts:
            if luck < share:
                return ("sql", text, ())
        changes = (
            (b"UPDATE t SET n = n + 1 WHERE id = :1", 1), (b"UPDATE t SET id = :2 WHERE id = :1", 2), (b"DELETE FROM t WHERE id = :1", 1),
            (b"INSERT INTO t VALUES (:1, 5)", 1), (b"SELECT n FROM t WHERE id = :1", 1), (b"SELECT n FROM t WHERE id = :1 FOR UPDATE", 1),
            (b"SELECT COUNT(*), SUM(n) FROM t", 0),
        )
        text, binds = self.chance.choice(changes)
        return ("sql", text, tuple(self.key_there() for _ in range(binds)))

    def beside(self):
        """What meets the rows and keys that are held."""
        text = self.chance.choice((b"UPDATE t SET n = 0 WHERE id = :1", b"INSERT INTO t VALUES (:1, 6)", b"SELECT n FROM t WHERE id = :1", b"COMMIT"))
        return ("sql", text, (self.key_there(),) if b":1" in text else ())


# Remap and change files.


def ended_lines(chance, lines):
    """The bytes of a file of records, with some end of lines."""
    end = chance.choice((b"\n", b"\n", b"\r\n", b"\r", b"\n\n"))
    return end.join(lines) + (end if chance.random() < 0.85 else b"")


ODD_REMAPS = (
    b"service,a", b"Service,a,b", b"service,a,b,c", b"service,\xff,b", b" service,a,b", b"", b'service,"a""b",c', b'service,"a"b,c',
    b'service,a"b,c', b"service," + b"a" * 1001 + b",b", b'"service,a,b',
)
ODD_CHANGES = (
    b"level", b"level,3", b"", b"x", b"service,Main,rw", b"service,select,rw", b"range,a", b"level,\xff", b"level,01", b'"level",2',
    b'level,"2"',
)


def random_remap(chance, start):
    services, lines, used = [name for name, _ in start.services], [], set()
    for _ in range(chance.choice((0, 1, 1, 2, 3))):
        captured = chance.choice([*services, b"main", b"report", b"nosuch", b"", b"x y"])
        if captured in used and chance.random() < 0.8:
            continue
        used.add(captured)
        fields = (b"service", captured, chance.choice([*services, *services, b"main", b"report", b"nosuch", b""]))
        lines.append(b",".join(b'"%s"' % data if chance.random() < 0.15 else data for data in fields))
        if chance.random() < 0.04:
            lines[-1] = chance.choice(ODD_REMAPS)
    return ended_lines(chance, lines)


def column_values(start, table, place):
    return [row.values[place] for row in start.rows if start.tables[row.table] is table]


def fitting_range(chance, start, table, place):
    numbers = [value[1] for value in column_values(start, table, place) if value[0] == "integer"] or [0, 3]
    if chance.random() < 0.2:
        return chance.choice(((0, 3), (5, 1), (LEAST_INTEGER, GREATEST_INTEGER)))
    if chance.random() < 0.5:
        return min(numbers), max(numbers)
    return min(*numbers, 0), max(*numbers, chance.choice((3, 5, 100)))


def change_of_column(chance, start, table):
    """A line that changes some column, where the table has one of a kind that can be changed."""
    place = chance.randrange(len(table.columns))
    column = table.columns[place]
    name = b"%s,%s" % (table.name, column.name)
    if chance.random() < 0.3:
        return b"null,%s,%s" % (name, chance.choice((b"null", b"notnull", b"notnull")))
    if column.kind[0] == "integer":
        return b"range,%s,%d,%d" % (name, *fitting_range(chance, start, table, place))
    if column.kind[0] == "text":
        lengths = [len(value[1]) for value in column_values(start, table, place) if value[0] == "text"] or [1]
        return b"length,%s,%d" % (name, chance.choice((max(lengths), max(lengths), 1, 2, 3, 5, 10, 1000, 1001, 0)))
    return b"length,%s,5" % name


def random_change_line(chance, start):
    luck = chance.random()
    if luck < 0.25 or not start.tables:
        return b"level,%d" % chance.choice((1, 2, 2))
    if luck < 0.68:
        return change_of_column(chance, start, chance.choice(start.tables))
    if luck < 0.8 and start.sequences:
        name, following = chance.choice(start.sequences)
        return b"next,%s,%d" % (name, following + chance.choice((0, 1, 5, 100, 100, -1 if chance.random() < 0.2 else 0)))
    names = [name for name, _ in start.services] + [b"newsvc", b"main"]
    return b"service,%s,%s" % (chance.choice(names), chance.choice((b"rw", b"ro", b"ro", b"none")))


def random_change(chance, start):
    lines = [random_change_line(chance, start) for _ in range(chance.choice((0, 1, 1, 2, 3, 4)))]
    if lines and chance.random() < 0.08:
        place = chance.randrange(len(lines))
        lines[place] = chance.choice((*ODD_CHANGES, lines[place] + b",", lines[place].upper(), b" " + lines[place]))
    if chance.random() < 0.01:
        lines = [b"service,n%d,rw" % number for number in range(SERVICE_LIMIT + 1)]
    return ended_lines(chance, lines)


def good_change(chance, start):
    """A change file after which the start keeps its rules, mostly with another level and tighter columns."""
    lines = [b"level,%d" % (3 - start.level)] if chance.random() < 0.6 else []
    for table in start.tables:
        for place, column in enumerate(table.columns):
            values, name, luck = column_values(start, table, place), b"%s,%s" % (table.name, column.name), chance.random()
            if column.kind[0] == "integer" and luck < 0.4:
                numbers = [value[1] for value in values if value[0] == "integer"] + [0] * chance.randrange(2)
                lines += [b"range,%s,%d,%d" % (name, min(numbers), max(numbers))] if numbers else []
            elif column.kind[0] == "text" and luck < 0.4:
                lines.append(b"length,%s,%d" % (name, max([1] + [len(value[1]) for value in values if value[0] == "text"])))
            elif place and luck > 0.8 and NULL not in values:
                lines.append(b"null,%s,notnull" % name)
    if start.sequences and chance.random() < 0.3:
        name, following = start.sequences[0]
        lines.append(b"next,%s,%d" % (name, min(NEXT_LIMIT, following + 7)))
    if chance.random() < 0.15:
        lines.append(b"service,%s,%s" % (chance.choice((b"main", b"rep", b"zz")), chance.choice((b"rw", b"ro"))))
    chance.shuffle(lines)
    return ended_lines(chance, lines)
