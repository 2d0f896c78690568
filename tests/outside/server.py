"""The server: what each call of up to 64 sessions is answered.

Enters: a start, and then calls, each with its session. Leaves: their replies, and the committed rows.
"""
from dataclasses import dataclass, field
from typing import NamedTuple, Optional

from outside import checks
from outside.expressions import Scope, evaluate, total
from outside.schema import comparable
from outside.statements import (
    ON_A_TABLE, Commit, Delete, Insert, ReadOnly, Rollback, RollbackTo, Savepoint, Select, SelectDraw, SelectTotals, Update, parse,
)
from outside.values import NULL, Image, Reply, refusal

NO_STATEMENT, NO_SERVICE, ONLY_READS, NOT_CONNECTED, CONNECTED, UNDER_WAY, NO_SAVEPOINT = 10, 14, 27, 28, 29, 32, 34
HELD, KEY_IS_THERE, NULL_REFUSED, OUT_OF_RANGE, TOO_LONG, TOO_MANY = 20, 21, 22, 23, 24, 33
# Over all rows that a statement touches, the first of these that applies is its fault.
FAULTS_BY_RANK = (25, 26, TOO_MANY, HELD, NULL_REFUSED, TOO_LONG, OUT_OF_RANGE, KEY_IS_THERE)
MATCH_LIMIT = 1000
EMPTY_TEXT = ("text", b"")
WRITES = (Insert, Update, Delete, SelectDraw)


class Refused(Exception):
    def __init__(self, fault):
        super().__init__(fault)
        self.fault = fault


class Point(NamedTuple):
    """A savepoint: what the transaction had when it was set."""

    name: bytes
    changes: dict
    rows: frozenset
    keys: frozenset


@dataclass
class Session:
    """A session; `changes` has a table and values (None: gone) for each row, `moment` the commit that it reads at."""

    rights: Optional[str] = None
    moment: Optional[int] = None
    changes: dict = field(default_factory=dict)
    rows: set = field(default_factory=set)
    keys: set = field(default_factory=set)
    points: list = field(default_factory=list)

    def end(self):
        self.moment, self.changes, self.rows, self.keys, self.points = None, {}, set(), set(), []

    def under_way(self):
        return self.moment is not None or bool(self.changes or self.rows or self.keys or self.points)

    def is_clean(self):
        return self.rights is not None and self.moment is None and not self.changes


class View(NamedTuple):
    """What the answer to a call depends on."""

    rights: Optional[str]
    only_reads: bool
    changes: frozenset
    rows: frozenset
    keys: frozenset
    points: tuple
    visible: frozenset
    others_rows: frozenset
    others_keys: frozenset


NO_TABLE = frozenset()


def frozen(changes):
    return frozenset((row, table, values) for row, (table, values) in changes.items())


class Server:
    def __init__(self, start):
        self.start, self.level = start, start.level
        self.moments = [{row.number: (row.table, row.values) for row in start.rows}]
        self.next_row = start.next_row
        self.next_values = [value for _, value in start.sequences]
        self.sessions = {}

    def session(self, number):
        if number not in self.sessions:
            self.sessions[number] = Session()
        return self.sessions[number]

    def committed(self):
        """The committed rows: number, table, values, by number."""
        return [(row, *self.moments[-1][row]) for row in sorted(self.moments[-1])]

    def answer(self, number, call):
        session = self.session(number)
        if call[0] == "connect":
            return self.connect(session, call[1])
        if call[0] == "disconnect":
            if session.rights is None:
                return refusal(NOT_CONNECTED)
            session.end()
            session.rights = None
            return Reply(("disconnected",), (), None)
        draws = []
        try:
            outcome, made = self.statement(session, call[1], call[2], draws)
        except Refused as refused:
            return refusal(refused.fault, draws)
        return Reply(outcome, tuple(draws), made)

    def connect(self, session, service):
        if session.rights is not None:
            return refusal(CONNECTED)
        rights = dict(self.start.services).get(service)
        if rights is None:
            return refusal(NO_SERVICE)
        session.end()
        session.rights = rights
        return Reply(("connected",), (), None)

    def statement(self, session, text, binds, draws):
        """The outcome of a statement and the row made; `draws` grows by what it draws."""
        statement = parse(text)
        if statement is None or (self.start.version == 1 and isinstance(statement, (Savepoint, RollbackTo))):
            raise Refused(NO_STATEMENT)
        if session.rights is None:
            raise Refused(NOT_CONNECTED)
        fault = checks.check(self.start, statement, binds)
        if fault is not None:
            raise Refused(fault)
        holds = isinstance(statement, WRITES) or (isinstance(statement, Select) and statement.for_update)
        if holds and (session.rights == "ro" or session.moment is not None):
            raise Refused(ONLY_READS)
        if not isinstance(statement, ON_A_TABLE):
            return self.of_no_table(session, statement, draws), None
        work = Work(self, session, statement, binds)
        if isinstance(statement, Insert):
            return work.insert(draws)
        return work.by_rows(), None

    def of_no_table(self, session, statement, draws):
        if isinstance(statement, Commit):
            return self.commit(session)
        if isinstance(statement, Rollback):
            session.end()
            return ("rolledback",)
        if isinstance(statement, ReadOnly):
            if session.under_way():
                raise Refused(UNDER_WAY)
            session.moment = len(self.moments) - 1
            return ("marked",)
        if isinstance(statement, Savepoint):
            session.points = [point for point in session.points if point.name != statement.savepoint]
            session.points.append(
                Point(statement.savepoint, dict(session.changes), frozenset(session.rows), frozenset(session.keys)))
            return ("marked",)
        if isinstance(statement, RollbackTo):
            return roll_back_to(session, statement.savepoint)
        value = self.draw(self.start.sequence_number(statement.sequence))
        draws.append(value)
        return ("rows", ((value,),))

    def commit(self, session):
        images = tuple(Image(row, *session.changes[row]) for row in sorted(session.changes))
        if images:
            rows = dict(self.moments[-1])
            for image in images:
                if image.values is None:
                    rows.pop(image.row, None)
                else:
                    rows[image.row] = (image.table, image.values)
            self.moments.append(rows)
        session.end()
        return ("committed", images)

    def draw(self, sequence):
        value = ("draw", sequence, self.next_values[sequence])
        self.next_values[sequence] += 1
        return value

    def visible(self, session, table):
        """The rows of a table that a session sees: values by row number."""
        rows = self.moments[-1 if session.moment is None else session.moment]
        seen = {row: values for row, (where, values) in rows.items() if where == table}
        for row, (where, values) in session.changes.items():
            if where == table and values is None:
                seen.pop(row, None)
            elif where == table:
                seen[row] = values
        return seen

    def others(self, session):
        return [other for other in self.sessions.values() if other is not session]

    def rows_held(self, session, rows):
        """Which of these rows other sessions hold."""
        return frozenset().union(*(other.rows & rows for other in self.others(session)))

    def key_is_held(self, session, table, value):
        wanted = comparable(self.level, value)
        return value != NULL and any(
            where == table and comparable(self.level, key) == wanted for other in self.others(session) for where, key in other.keys)

    def view(self, number, call):
        """What the answer to the call depends on, before it is given."""
        session = self.session(number)
        statement = parse(call[1]) if call[0] == "sql" else None
        table = self.start.table_number(statement.table) if isinstance(statement, ON_A_TABLE) else None
        visible = others_rows = others_keys = NO_TABLE
        if table is not None:
            seen = self.visible(session, table)
            visible = frozenset((row, table, values) for row, values in seen.items())
            others_rows = self.rows_held(session, seen.keys())
            others_keys = frozenset(key for other in self.others(session) for where, key in other.keys if where == table)
        points = tuple((point.name, frozen(point.changes), point.rows, point.keys) for point in session.points)
        return View(
            session.rights, session.moment is not None, frozen(session.changes), frozenset(session.rows), frozenset(session.keys), points,
            visible, others_rows, others_keys)


def roll_back_to(session, name):
    for place, point in enumerate(session.points):
        if point.name == name:
            session.changes, session.rows, session.keys = dict(point.changes), set(point.rows), set(point.keys)
            session.points = session.points[:place + 1]
            return ("rolledback",)
    raise Refused(NO_SAVEPOINT)


class Work:
    """One statement on a table."""

    def __init__(self, server, session, statement, binds):
        self.server, self.session, self.statement, self.binds = server, session, statement, binds
        self.level = server.level
        self.number = server.start.table_number(statement.table)
        self.columns = server.start.tables[self.number].columns
        self.names = [column.name for column in self.columns]
        self.places = {name: place for place, name in enumerate(self.names)}
        self.faults = set()

    def refuse_by_rank(self):
        for fault in FAULTS_BY_RANK:
            if fault in self.faults:
                raise Refused(fault)

    def stored(self, value):
        return NULL if self.level == 2 and value == EMPTY_TEXT else value

    def note_image(self, values):
        """Notes the faults of values that go into the columns."""
        for column, value in zip(self.columns, values):
            if value == NULL:
                if column.not_null:
                    self.faults.add(NULL_REFUSED)
            elif column.kind[0] == "text" and len(value[1]) > column.kind[1]:
                self.faults.add(TOO_LONG)
            elif column.kind[0] == "integer" and not column.kind[1] <= value[1] <= column.kind[2]:
                self.faults.add(OUT_OF_RANGE)

    def note_keys(self, rows):
        """Notes where two rows have one key."""
        keys = [comparable(self.level, values[0]) for values in rows if values[0] != NULL]
        if len(set(keys)) != len(keys):
            self.faults.add(KEY_IS_THERE)

    def note_changed(self, rows):
        if len(self.session.changes.keys() | rows) > MATCH_LIMIT:
            self.faults.add(TOO_MANY)

    def insert(self, draws):
        statement, server, session = self.statement, self.server, self.session
        sequences = sorted({server.start.sequence_number(what) for kind, what in statement.inputs if kind == "next"})
        drawn = {sequence: server.draw(sequence) for sequence in sequences}
        draws.extend(drawn.values())
        scope = Scope(self.level, 0, (), self.places, self.binds, self.faults)
        new = dict.fromkeys(self.names, NULL)
        for name, (kind, what) in zip(self.names if statement.names is None else statement.names, statement.inputs):
            value = drawn[server.start.sequence_number(what)] if kind == "next" else evaluate(scope, what)
            new[name] = value if value is None else self.stored(value)
        self.note_changed({server.next_row})
        values = tuple(new.values())
        if None not in values:
            if server.key_is_held(session, self.number, values[0]):
                self.faults.add(HELD)
            self.note_image(values)
            self.note_keys([*server.visible(session, self.number).values(), values])
        self.refuse_by_rank()
        row = server.next_row
        server.next_row += 1
        session.changes[row] = (self.number, values)
        session.rows.add(row)
        session.keys.add((self.number, values[0]))
        return ("count", 1), row

    def matching(self, seen):
        """The scopes of the rows that match, by row number."""
        scopes = [Scope(self.level, row, seen[row], self.places, self.binds, self.faults) for row in sorted(seen)]
        where = self.statement.where
        return scopes if where is None else [scope for scope in scopes if evaluate(scope, where) is True]

    def by_rows(self):
        seen = self.server.visible(self.session, self.number)
        scopes = self.matching(seen)
        if isinstance(self.statement, SelectTotals):
            row = tuple(total(word, expression, scopes) for word, expression in self.statement.totals)
            self.refuse_by_rank()
            return ("rows", (row,))
        if len(scopes) > MATCH_LIMIT:
            self.faults.add(TOO_MANY)
        holds = not isinstance(self.statement, Select) or self.statement.for_update
        if holds and self.server.rows_held(self.session, {scope.row for scope in scopes}):
            self.faults.add(HELD)
        if isinstance(self.statement, Select):
            return self.select(scopes)
        self.note_changed({scope.row for scope in scopes})
        return self.delete(scopes) if isinstance(self.statement, Delete) else self.update(seen, scopes)

    def select(self, scopes):
        for name, descends in reversed(self.statement.keys):
            scopes = self.ordered(scopes, name, descends)
        if self.statement.items is None:
            rows = tuple(scope.values for scope in scopes)
        else:
            rows = tuple(tuple(evaluate(scope, item) for item in self.statement.items) for scope in scopes)
        self.refuse_by_rank()
        if self.statement.for_update:
            self.session.rows.update(scope.row for scope in scopes)
        return ("rows", rows)

    def ordered(self, scopes, name, descends):
        """By one key, Null last (first where it descends); equal ones stay in their order."""
        place = self.places[name]
        nulls = [scope for scope in scopes if scope.values[place] == NULL]
        others = [scope for scope in scopes if scope.values[place] != NULL]
        others.sort(key=lambda scope: comparable(self.level, scope.values[place])[1], reverse=descends)
        return nulls + others if descends else others + nulls

    def delete(self, scopes):
        self.refuse_by_rank()
        for scope in scopes:
            self.session.changes[scope.row] = (self.number, None)
            self.session.rows.add(scope.row)
            self.session.keys.add((self.number, scope.values[0]))
        return ("count", len(scopes))

    def update(self, seen, scopes):
        new, keys = {}, set()
        for scope in scopes:
            values = list(scope.values)
            for name, expression in self.statement.settings:
                value = evaluate(scope, expression)
                values[self.places[name]] = value if value is None else self.stored(value)
            image, old = tuple(values), scope.values[0]
            if None in image:
                continue
            new[scope.row] = image
            self.note_image(image)
            if comparable(self.level, old) != comparable(self.level, image[0]):
                keys |= {(self.number, old), (self.number, image[0])}
                if self.server.key_is_held(self.session, self.number, image[0]):
                    self.faults.add(HELD)
        self.note_keys([new.get(row, values) for row, values in seen.items()])
        self.refuse_by_rank()
        for row, image in new.items():
            self.session.changes[row] = (self.number, image)
            self.session.rows.add(row)
        self.session.keys |= keys
        return ("count", len(scopes))
