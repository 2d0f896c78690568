"""The checks of a statement before it touches a row, and its expressions' kinds.

Enters: a start, a statement and binds. Leaves: the first fault by rank, or None.
"""
from outside.statements import (
    ON_A_TABLE, COMPARISONS, Insert, Select, SelectDraw, SelectTotals, Update, expressions_of, parts_of,
)

NO_TABLE, NO_COLUMN, NO_SEQUENCE, MISMATCHED, NO_BIND = 11, 12, 13, 15, 16
CONDITION = ("condition",)
NULL_KIND, INTEGER_KIND, TEXT_KIND, ROW_KIND = ("null",), ("integer",), ("text",), ("row",)
ADDABLE = (INTEGER_KIND, NULL_KIND)
ORDERED = (INTEGER_KIND, TEXT_KIND, NULL_KIND)


class Mismatch(Exception):
    """Parts that do not go together."""


def kind_of_column(column):
    return column.kind if column.kind[0] == "draw" else column.kind[:1]


def kind_of_value(value):
    return value[:2] if value[0] == "draw" else value[:1]


def require(holds):
    if not holds:
        raise Mismatch


def kind_of(expression, columns, binds):
    """The kind of an expression over columns by name; `Mismatch` where its parts do not go together."""
    what = expression[0]
    if what in ("null", "integer", "text"):
        return (what,)
    if what == "rowid":
        return ROW_KIND
    if what == "bind":
        return kind_of_value(binds[expression[1] - 1])
    if what == "column":
        return kind_of_column(columns[expression[1]])
    kinds = [kind_of(part, columns, binds) for part in expression[1:]]
    if what in ("minus", "+", "-", "*", "/"):
        require(all(kind in ADDABLE for kind in kinds))
        return INTEGER_KIND
    if what in ("not", "AND", "OR"):
        require(all(kind == CONDITION for kind in kinds))
        return CONDITION
    require(CONDITION not in kinds)
    if what in COMPARISONS:
        require(kinds[0] == kinds[1] or NULL_KIND in kinds)
        require(what in ("=", "<>") or all(kind in ORDERED for kind in kinds))
    return CONDITION


def mismatches(start, statement, table, binds):
    """Whether parts of the statement do not go together."""
    columns = {column.name: column for column in table.columns}
    try:
        if isinstance(statement, Select):
            require(all(kind_of(item, columns, binds) != CONDITION for item in statement.items or []))
            require(all(kind_of_column(columns[name]) in ORDERED for name, _ in statement.keys))
        elif isinstance(statement, SelectTotals):
            for word, expression in statement.totals:
                require(word == "COUNT" or kind_of(expression, columns, binds) in (ADDABLE if word == "SUM" else ORDERED))
        elif isinstance(statement, Update):
            for name, expression in statement.settings:
                require(kind_of(expression, columns, binds) in (NULL_KIND, kind_of_column(columns[name])))
        elif isinstance(statement, Insert):
            targets = table.columns if statement.names is None else [columns[name] for name in statement.names]
            require(len(targets) == len(statement.inputs))
            for column, (kind, what) in zip(targets, statement.inputs):
                found = ("draw", start.sequence_number(what)) if kind == "next" else kind_of(what, columns, binds)
                require(found in (NULL_KIND, kind_of_column(column)))
        where = getattr(statement, "where", None)
        require(where is None or kind_of(where, columns, binds) == CONDITION)
    except Mismatch:
        return True
    return False


def lacks_a_column(statement, table, parts):
    known = {column.name for column in table.columns}
    inserts = isinstance(statement, Insert)
    if any(part[0] == "column" and (inserts or part[1] not in known) or part[0] == "rowid" and inserts for part in parts):
        return True
    named = []
    if inserts:
        named = statement.names or []
    elif isinstance(statement, Update):
        named = [name for name, _ in statement.settings]
    keys = [name for name, _ in statement.keys] if isinstance(statement, Select) else []
    return len(set(named)) != len(named) or any(name not in known for name in named + keys)


def lacks_a_sequence(start, statement):
    if isinstance(statement, SelectDraw):
        return start.sequence_number(statement.sequence) is None
    inputs = statement.inputs if isinstance(statement, Insert) else []
    return any(kind == "next" and start.sequence_number(what) is None for kind, what in inputs)


def check(start, statement, binds):
    """The fault of a statement, or None."""
    if not isinstance(statement, ON_A_TABLE):
        return NO_SEQUENCE if lacks_a_sequence(start, statement) else None
    number = start.table_number(statement.table)
    if number is None:
        return NO_TABLE
    table = start.tables[number]
    parts = [part for expression in expressions_of(statement) for part in parts_of(expression)]
    if lacks_a_column(statement, table, parts):
        return NO_COLUMN
    if lacks_a_sequence(start, statement):
        return NO_SEQUENCE
    if any(part[0] == "bind" and part[1] > len(binds) for part in parts):
        return NO_BIND
    return MISMATCHED if mismatches(start, statement, table, binds) else None
