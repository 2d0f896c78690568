"""Values of expressions, truths of conditions, and totals.

Enters: an expression, and a scope with the level, the row and the binds. Leaves: a value or a truth (True, False or `UNKNOWN`), or None
where it has a fault, which the scope then notes.
"""
from typing import NamedTuple

from outside.schema import comparable
from outside.values import GREATEST_INTEGER, LEAST_INTEGER, NULL

UNKNOWN = "unknown"
DIVIDED_BY_ZERO, TOO_LARGE = 25, 26


class Scope(NamedTuple):
    """Places tells which of the row's values a column has; faults is a set that grows."""

    level: int
    row: int
    values: tuple
    places: dict
    binds: tuple
    faults: set


def evaluate(scope, expression):
    what = expression[0]
    if what in ("integer", "text", "null"):
        return expression
    if what == "column":
        return scope.values[scope.places[expression[1]]]
    if what == "bind":
        return scope.binds[expression[1] - 1]
    if what == "rowid":
        return ("row", scope.row)
    operands = [evaluate(scope, part) for part in expression[1:]]
    if None in operands:
        return None
    if what in ("is null", "is not null"):
        return (operands[0] == NULL) == (what == "is null")
    if what == "not":
        return UNKNOWN if operands[0] == UNKNOWN else not operands[0]
    if what == "AND":
        return joined_truth(operands, False)
    if what == "OR":
        return joined_truth(operands, True)
    if NULL in operands:
        return NULL if what in ("minus", "+", "-", "*", "/") else UNKNOWN
    if what == "minus":
        return within(scope, -operands[0][1])
    if what in ("+", "-", "*", "/"):
        return arithmetic(scope, what, operands[0][1], operands[1][1])
    return compared(scope.level, what, *operands)


def joined_truth(operands, decisive):
    """AND is decided by a False, OR by a True."""
    if any(operand is decisive for operand in operands):
        return decisive
    return UNKNOWN if UNKNOWN in operands else not decisive


def within(scope, number):
    if not LEAST_INTEGER <= number <= GREATEST_INTEGER:
        scope.faults.add(TOO_LARGE)
        return None
    return ("integer", number)


def arithmetic(scope, sign, left, right):
    if sign == "+":
        return within(scope, left + right)
    if sign == "-":
        return within(scope, left - right)
    if sign == "*":
        return within(scope, left * right)
    if right == 0:
        scope.faults.add(DIVIDED_BY_ZERO)
        return None
    quotient = left // right
    if scope.level == 1 and quotient < 0 and quotient * right != left:
        quotient += 1
    return within(scope, quotient)


def compared(level, sign, left, right):
    left, right = comparable(level, left), comparable(level, right)
    if sign == "=":
        return left == right
    if sign == "<>":
        return left != right
    if sign == "<":
        return left[1] < right[1]
    if sign == "<=":
        return left[1] <= right[1]
    if sign == ">":
        return left[1] > right[1]
    return left[1] >= right[1]


def total(word, expression, scopes):
    """COUNT, SUM, MIN or MAX over the rows that match."""
    if word == "COUNT":
        return ("integer", len(scopes))
    values = [evaluate(scope, expression) for scope in scopes]
    values = [value for value in values if value is not None and value != NULL]
    if not values:
        return NULL
    if word == "SUM":
        return within(scopes[0], sum(value[1] for value in values))
    level = scopes[0].level
    best = (min if word == "MIN" else max)(comparable(level, value)[1] for value in values)
    return min(value for value in values if comparable(level, value)[1] == best)
