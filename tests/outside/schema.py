"""The start of a capture: sequences, services, tables and rows, and the rules that they keep.

Enters: parts of a start. Leaves: whether they keep the rules, and how values compare at a level.
"""
from dataclasses import dataclass, field, replace
from typing import NamedTuple

from outside.values import NULL

NEXT_LIMIT = 2**39
SEQUENCE_LIMIT = SERVICE_LIMIT = COLUMN_LIMIT = 16
ROW_LIMIT = 100_000
SESSION_LIMIT = 64
CALL_LIMIT = 100_000
TEXT_COLUMN_LIMIT = 1000


class Column(NamedTuple):
    """The kind is ("integer", least, greatest), ("text", length) or ("draw", sequence)."""

    name: bytes
    kind: tuple
    not_null: bool


class Table(NamedTuple):
    name: bytes
    columns: tuple


class Row(NamedTuple):
    number: int
    table: int
    values: tuple


@dataclass
class Start:
    """Sequences are pairs of a name and the next value, services pairs of a name and `rw` or `ro`."""

    version: int
    level: int
    sequences: list = field(default_factory=list)
    services: list = field(default_factory=list)
    tables: list = field(default_factory=list)
    rows: list = field(default_factory=list)
    next_row: int = 1

    def copy(self):
        return replace(self, sequences=list(self.sequences), services=list(self.services), tables=list(self.tables), rows=list(self.rows))

    def table_number(self, name):
        return position(self.tables, name)

    def sequence_number(self, name):
        return position(self.sequences, name)

    def ids(self):
        """The ids that stand in the rows."""
        found = {("row", row.number) for row in self.rows}
        for row in self.rows:
            found.update(value for value in row.values if value[0] == "draw")
        return found


def position(named, name):
    """The place of the one with that name, or None."""
    for place, one in enumerate(named):
        if one[0] == name:
            return place
    return None


def comparable(level, value):
    """What stands for a value where values are compared: at level 2 spaces at the end of a text do not count."""
    if level == 2 and value[0] == "text":
        return ("text", value[1].rstrip(b" "))
    return value


def takes(start, column, value):
    """Whether a column of the start takes a value."""
    kind = column.kind
    if value == NULL:
        return not column.not_null
    if value[0] != kind[0]:
        return False
    if kind[0] == "integer":
        return kind[1] <= value[1] <= kind[2]
    if kind[0] == "text":
        return len(value[1]) <= kind[1]
    return value[1] == kind[1] and 1 <= value[2] < start.sequences[kind[1]][1]


def key_of(level, table, values):
    """What tells the rows of a table apart."""
    return (table, comparable(level, values[0]))


def rows_keep_rules(start):
    """Whether each row goes into its columns and no key stands twice."""
    keys = set()
    for row in start.rows:
        if not all(takes(start, column, value) for column, value in zip(start.tables[row.table].columns, row.values)):
            return False
        keys.add(key_of(start.level, row.table, row.values))
    return len(keys) == len(start.rows)
