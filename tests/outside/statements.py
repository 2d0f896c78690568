"""Statements: from the text of one to its tree.

Enters: the bytes of a text. Leaves: one of the statements below, or None where the text is no statement.
An expression is a tuple that begins with what it is: ("integer", 5), ("text", b"a"), ("null",), ("bind", 1), ("column", b"a"), ("rowid",),
("minus", e), ("not", e), ("is null", e), ("is not null", e), or (operator, e, e).
"""
import re
import sys
from typing import NamedTuple, Optional

from outside.values import GREATEST_INTEGER

KEYWORDS = frozenset((
    "AND ASC BY COMMIT COUNT DELETE DESC DUAL FOR FROM INSERT INTO IS MAX MIN NEXTVAL NOT NULL ONLY OR ORDER "
    "READ ROLLBACK ROWID SAVEPOINT SELECT SET SUM TO TRANSACTION UPDATE VALUES WHERE"
).split())
NAME_LIMIT = 30
LIST_LIMIT = 16
DEPTH_LIMIT = 32
COMPARISONS = frozenset(("=", "<>", "<", "<=", ">", ">="))
TOTALS = frozenset(("COUNT", "SUM", "MIN", "MAX"))
KEPT_TREES = 50_000
TOKEN = re.compile(
    rb"[ \t\r\n]+|(?P<word>[A-Za-z][A-Za-z0-9_]*)|(?P<number>[0-9]+)(?![A-Za-z0-9_])|'(?P<string>(?:[^']|'')*)'"
    rb"|:(?P<bind>[1-9]|1[0-6])(?![A-Za-z0-9_])|(?P<sign><>|!=|<=|>=|[(),.*+\-/=<>;])"
)
# The tree of a long chain of operators is deep on its left.
sys.setrecursionlimit(20_000)


class Select(NamedTuple):
    """Items are None for all columns; keys are pairs of a name and whether it descends."""

    table: bytes
    items: Optional[list]
    where: Optional[tuple]
    keys: list
    for_update: bool


class SelectTotals(NamedTuple):
    """Totals are pairs of a word and an expression, which COUNT has not."""

    table: bytes
    totals: list
    where: Optional[tuple]


class SelectDraw(NamedTuple):
    sequence: bytes


class Insert(NamedTuple):
    """Names are None where none stand; inputs are ("next", sequence) or ("value", expression)."""

    table: bytes
    names: Optional[list]
    inputs: list


class Update(NamedTuple):
    table: bytes
    settings: list
    where: Optional[tuple]


class Delete(NamedTuple):
    table: bytes
    where: Optional[tuple]


class Commit(NamedTuple):
    pass


class Rollback(NamedTuple):
    pass


class RollbackTo(NamedTuple):
    savepoint: bytes


class Savepoint(NamedTuple):
    savepoint: bytes


class ReadOnly(NamedTuple):
    pass


ON_A_TABLE = (Select, SelectTotals, Insert, Update, Delete)


class NoStatement(Exception):
    """A text that is no statement."""


def read_word(word):
    upper = word.upper()
    if upper in KEYWORDS:
        return ("keyword", upper)
    if len(word) > NAME_LIMIT:
        raise NoStatement
    return ("name", word.lower().encode())


def read_token(match):
    kind, piece = match.lastgroup, match.group(match.lastgroup)
    if kind == "word":
        return read_word(piece.decode())
    if kind == "number":
        if int(piece) > GREATEST_INTEGER:
            raise NoStatement
        return ("integer", int(piece))
    if kind == "string":
        return ("text", piece.replace(b"''", b"'"))
    if kind == "bind":
        return ("bind", int(piece))
    return ("sign", "<>" if piece == b"!=" else piece.decode())


def tokens_of(text):
    tokens, place = [], 0
    while place < len(text):
        match = TOKEN.match(text, place)
        if not match:
            raise NoStatement
        if match.lastgroup:
            tokens.append(read_token(match))
        place = match.end()
    return tokens


class Parser:
    """Reads one statement of tokens; `NoStatement` where they are none."""

    def __init__(self, tokens):
        self.tokens, self.place = tokens + [("end", None)] * 2, 0

    def sees(self, kind, what):
        return self.tokens[self.place] == (kind, what)

    def takes(self, kind, what):
        if self.sees(kind, what):
            self.place += 1
            return True
        return False

    def word(self, what):
        return self.takes("keyword", what)

    def sign(self, what):
        return self.takes("sign", what)

    def need(self, *what):
        for piece in what:
            if not self.takes("keyword" if piece.isalpha() else "sign", piece):
                raise NoStatement

    def name(self):
        kind, name = self.tokens[self.place]
        if kind != "name":
            raise NoStatement
        self.place += 1
        return name

    def list_of(self, read):
        found = [read()]
        while self.sign(","):
            found.append(read())
        if len(found) > LIST_LIMIT:
            raise NoStatement
        return found

    def statement(self):
        for word, read in (
            ("SELECT", self.select), ("INSERT", self.insert), ("UPDATE", self.update), ("DELETE", self.delete), ("COMMIT", Commit),
            ("ROLLBACK", self.rollback), ("SAVEPOINT", lambda: Savepoint(self.name())), ("SET", self.read_only),
        ):
            if self.word(word):
                found = read()
                self.sign(";")
                if not self.sees("end", None):
                    raise NoStatement
                return found
        raise NoStatement

    def rollback(self):
        if self.word("TO"):
            self.word("SAVEPOINT")
            return RollbackTo(self.name())
        return Rollback()

    def read_only(self):
        self.need("TRANSACTION", "READ", "ONLY")
        return ReadOnly()

    def where(self):
        return self.disjunction(0) if self.word("WHERE") else None

    def sees_draw(self):
        return self.tokens[self.place][0] == "name" and self.tokens[self.place + 1] == ("sign", ".")

    def draw(self):
        sequence = self.name()
        self.need(".", "NEXTVAL")
        return sequence

    def select(self):
        if self.sees_draw():
            sequence = self.draw()
            self.need("FROM", "DUAL")
            return SelectDraw(sequence)
        kind, what = self.tokens[self.place]
        if kind == "keyword" and what in TOTALS:
            totals = self.list_of(self.total)
            self.need("FROM")
            return SelectTotals(self.name(), totals, self.where())
        items = None if self.sign("*") else self.list_of(lambda: self.disjunction(0))
        self.need("FROM")
        table, where, keys = self.name(), self.where(), []
        if self.word("ORDER"):
            self.need("BY")
            keys = self.list_of(self.key)
        for_update = self.word("FOR")
        if for_update:
            self.need("UPDATE")
        return Select(table, items, where, keys, for_update)

    def total(self):
        kind, what = self.tokens[self.place]
        if kind != "keyword" or what not in TOTALS:
            raise NoStatement
        self.place += 1
        self.need("(")
        if what == "COUNT":
            self.need("*", ")")
            return (what, None)
        expression = self.disjunction(0)
        self.need(")")
        return (what, expression)

    def key(self):
        name = self.name()
        descends = self.word("DESC")
        if not descends:
            self.word("ASC")
        return (name, descends)

    def insert(self):
        self.need("INTO")
        table, names = self.name(), None
        if self.sign("("):
            names = self.list_of(self.name)
            self.need(")")
        self.need("VALUES", "(")
        inputs = self.list_of(self.input)
        self.need(")")
        return Insert(table, names, inputs)

    def input(self):
        if self.sees_draw():
            return ("next", self.draw())
        return ("value", self.disjunction(0))

    def update(self):
        table = self.name()
        self.need("SET")
        return Update(table, self.list_of(self.setting), self.where())

    def setting(self):
        name = self.name()
        self.need("=")
        return (name, self.disjunction(0))

    def delete(self):
        self.need("FROM")
        return Delete(self.name(), self.where())

    def disjunction(self, depth):
        left = self.conjunction(depth)
        while self.word("OR"):
            left = ("OR", left, self.conjunction(depth))
        return left

    def conjunction(self, depth):
        left = self.negation(depth)
        while self.word("AND"):
            left = ("AND", left, self.negation(depth))
        return left

    def negation(self, depth):
        if self.word("NOT"):
            return ("not", self.negation(deeper(depth)))
        return self.comparison(depth)

    def comparison(self, depth):
        left = self.sum(depth)
        kind, what = self.tokens[self.place]
        if kind == "sign" and what in COMPARISONS:
            self.place += 1
            return (what, left, self.sum(depth))
        if self.word("IS"):
            negated = self.word("NOT")
            self.need("NULL")
            return ("is not null" if negated else "is null", left)
        return left

    def chain(self, signs, read, depth):
        left = read(depth)
        while self.tokens[self.place][0] == "sign" and self.tokens[self.place][1] in signs:
            sign = self.tokens[self.place][1]
            self.place += 1
            left = (sign, left, read(depth))
        return left

    def sum(self, depth):
        return self.chain("+-", self.product, depth)

    def product(self, depth):
        return self.chain("*/", self.factor, depth)

    def factor(self, depth):
        if self.sign("-"):
            return ("minus", self.factor(deeper(depth)))
        return self.primary(depth)

    def primary(self, depth):
        kind, what = self.tokens[self.place]
        self.place += 1
        if kind in ("integer", "text", "bind"):
            return (kind, what)
        if kind == "name":
            return ("column", what)
        if (kind, what) == ("keyword", "NULL"):
            return ("null",)
        if (kind, what) == ("keyword", "ROWID"):
            return ("rowid",)
        if (kind, what) == ("sign", "("):
            inner = self.disjunction(deeper(depth))
            self.need(")")
            return inner
        raise NoStatement


def deeper(depth):
    if depth == DEPTH_LIMIT:
        raise NoStatement
    return depth + 1


KEPT = {}


def parse(text):
    """The statement of a text, or None. Trees are kept, since texts come again."""
    if text in KEPT:
        return KEPT[text]
    try:
        statement = Parser(tokens_of(text)).statement()
    except NoStatement:
        statement = None
    if len(KEPT) > KEPT_TREES:
        KEPT.clear()
    KEPT[text] = statement
    return statement


def parts_of(expression):
    """The expression and every part of it."""
    waiting = [expression]
    while waiting:
        part = waiting.pop()
        yield part
        waiting.extend(piece for piece in part[1:] if isinstance(piece, tuple))


def expressions_of(statement):
    """The expressions that stand in a statement."""
    found = []
    if isinstance(statement, Select):
        found += statement.items or []
    elif isinstance(statement, SelectTotals):
        found += [expression for _, expression in statement.totals if expression is not None]
    elif isinstance(statement, Insert):
        found += [what for kind, what in statement.inputs if kind == "value"]
    elif isinstance(statement, Update):
        found += [expression for _, expression in statement.settings]
    where = getattr(statement, "where", None)
    return found + ([] if where is None else [where])
