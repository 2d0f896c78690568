"""Random statements.

Enters: a source of chance, a start, and the server as it stands. Leaves: texts of statements with their binds, most of them good.
"""
from typing import NamedTuple

from outside.values import BIND_LIMIT, GREATEST_INTEGER, LEAST_INTEGER, NULL

INTEGERS = (
    0, 1, 2, 3, 4, 5, -1, -2, -7, 7, 10, 100, GREATEST_INTEGER, LEAST_INTEGER, LEAST_INTEGER + 1, GREATEST_INTEGER - 1, 2**32, 3037000500,
)
LARGE = (7, 10, 100, GREATEST_INTEGER, GREATEST_INTEGER - 1, 2**32, 3037000500, 1000001)
TEXTS = (
    b"", b" ", b"a", b"a ", b"a  ", b"b", b" a", b"A", b"ab", b"a b", b"it's", b"x,y", b'"q"', "é".encode(), "€".encode(), b"\n", b"zz",
    b"long text of some bytes", b"%", b"100%",
)
SPACED = (b"", b" ", b"a", b"a ", b"a  ", b"b", b"b ", b" a")
STRANGE_ROWS = (77, 2**40 + 1, 3)
SIGNS = ("=", "=", "=", "<>", "!=", "<", "<=", ">", ">=")
# What no statement is, or just is one; {} is a table.
ODD = tuple((
    "", ";", "SELECT", "SELECT 1 FROM", "COMMIT COMMIT", "SELECT * FROM t1 WHERE", "SELECT 'a FROM acct", "DELETE FROM acct;;",
    "SELECT " + "(" * 33 + "1" + ")" * 33 + " FROM {}", "SELECT " + "(" * 32 + "1" + ")" * 32 + " FROM {}",
    "SELECT 1 FROM {} WHERE " + "NOT " * 33 + "1=1", "SELECT 1 FROM {} WHERE " + "NOT " * 32 + "1=1", "SELECT " + "- " * 32 + "1 FROM {}",
    "SELECT " + "-" * 33 + "1 FROM {}", "SELECT " + ",".join(["1"] * 17) + " FROM {}", "SELECT " + ",".join(["1"] * 16) + " FROM {}",
    "SELECT " + "+".join(["1"] * 300) + " FROM {}", "SELECT :17 FROM {}", "SELECT :01 FROM {}", "SELECT :1a FROM {}", "SELECT 1a FROM {}",
    "SELECT é FROM {}", "ROLLBACK TO", "SAVEPOINT", "SELECT COUNT(*), 1 FROM {}", "SELECT a" + "b" * 30 + " FROM {}", "SELECT a1 FROM {}",
    "SELECT 1 < > 2 FROM {}", "SELECT 1\x0bFROM {}", "SELECT COUNT(*) FROM {} FOR UPDATE", "SELECT 1 = 1 = 1 FROM {}",
    "SELECT 1 FROM {} WHERE 1 IS NULL IS NULL", "SELECT NULL IS NULL FROM {}", "SET TRANSACTION READ WRITE", "SELECT 1+1FROM {}",
    "SELECT 'a'FROM {}", "SELECT rowid FROM {} ORDER BY rowid", "SELECT select FROM {}", "UPDATE {} SET id = 3 - id", "COMMIT;;",
    "SELECT 1",
    "SELECT * FROM {} WHERE NULL", "SELECT * FROM {} WHERE NOT NULL", "SELECT SUM(1), COUNT (*) FROM {} WHERE 1 = 2", "COMMIT;",
    "SELECT :16 FROM {}",
))
TEXT_LIMIT = 1000


class Taste(NamedTuple):
    """Which statements come more often; texts are those of which texts are chosen."""

    texts: tuple = TEXTS
    small_numbers: float = 0.55
    quotients: bool = False
    by_key: bool = False
    one_moment: bool = False
    crowded: bool = False
    ids: bool = False


class Writer:
    """Writes one statement: `binds` grows by what it binds."""

    def __init__(self, chance, taste, start, server, ids):
        self.chance, self.taste, self.start, self.server, self.ids = chance, taste, start, server, ids
        self.binds = []

    def lucky(self, share):
        return self.chance.random() < share

    def one_of(self, *choices):
        return self.chance.choice(choices)

    def word(self, word):
        """A keyword in some case."""
        luck = self.chance.random()
        if luck < 0.8:
            return word
        return word.lower() if luck < 0.9 else "".join(self.one_of(letter, letter.lower()) for letter in word)

    def name(self, name):
        return name.decode().upper() if self.lucky(0.05) else name.decode()

    def space(self):
        return self.one_of("", " ")

    def bind(self, value):
        if value in self.binds and self.lucky(0.5):
            return ":%d" % (self.binds.index(value) + 1)
        if len(self.binds) == BIND_LIMIT:
            return "NULL"
        self.binds.append(value)
        return ":%d" % len(self.binds)

    def string(self, text):
        return "'" + text.decode().replace("'", "''") + "'"

    def number(self):
        luck = self.chance.random()
        if self.taste.quotients and luck < 0.35:
            return self.one_of("-7", "-1", "-3", "2", "3", "-2")
        if luck < self.taste.small_numbers:
            return str(self.chance.choice((0, 1, 1, 2, 2, 3, 3, 4, 5)))
        if luck < 0.7:
            return str(self.chance.choice(LARGE))
        if luck < 0.74:
            return self.one_of("00%d" % self.chance.randrange(9), str(2**63))
        if luck < 0.9:
            return self.bind(("integer", self.chance.choice(INTEGERS)))
        if luck < 0.95:
            return "-" + self.space() + str(self.chance.choice((1, 2, 7, GREATEST_INTEGER)))
        return self.one_of("NULL", self.bind(NULL))

    def expression(self, kind, columns, depth):
        if self.lucky(0.03):
            kind = self.chance.choice((("integer",), ("text",), ("row",), ("condition",), ("null",)))
        if depth > 0 and self.lucky(0.08):
            return "(" + self.expression(kind, columns, depth - 1) + ")"
        if kind[0] == "null":
            return self.one_of("NULL", self.bind(NULL))
        if kind[0] == "condition":
            return self.condition(columns, depth)
        fitting = [column for column in columns if column.kind[:len(kind)] == kind]
        if kind[0] == "integer":
            return self.sum(fitting, columns, depth)
        if kind[0] != "row" and fitting and self.lucky(0.5):
            return self.name(self.chance.choice(fitting).name)
        return self.text() if kind[0] == "text" else self.identity(kind)

    def sum(self, fitting, columns, depth):
        if depth <= 0 or self.lucky(0.5):
            return self.name(self.chance.choice(fitting).name) if fitting and self.lucky(0.55) else self.number()
        if self.lucky(0.12):
            inner = self.expression(("integer",), columns, depth - 1)
            return self.one_of("-" + inner, "- " + inner, "- (" + inner + ")")
        space, sign = self.space(), self.chance.choice("+-*////" if self.taste.quotients else "+-*/")
        return space.join((self.expression(("integer",), columns, depth - 1), sign, self.expression(("integer",), columns, depth - 1)))

    def text(self):
        text, luck = self.chance.choice(self.taste.texts), self.chance.random()
        if luck < 0.5:
            return self.bind(("text", text))
        return self.string(text) if luck < 0.95 else "NULL"

    def identity(self, kind):
        """A row id or a drawn value."""
        luck = self.chance.random()
        if kind == ("row",) and luck < 0.4:
            return self.word("ROWID")
        known = [value for value in self.ids if value[:len(kind)] == kind]
        if known and luck < 0.95:
            return self.bind(self.chance.choice(known[-6:] if self.lucky(0.7) else known))
        return self.bind(("row", self.chance.choice(STRANGE_ROWS))) if kind == ("row",) and luck < 0.97 else "NULL"

    def condition(self, columns, depth):
        luck = self.chance.random()
        if depth > 0 and luck < 0.12:
            return self.word("NOT") + " " + self.condition(columns, depth - 1)
        if depth > 0 and luck < 0.3:
            return self.condition(columns, depth - 1) + " " + self.word(self.one_of("AND", "OR")) + " " + self.condition(columns, depth - 1)
        if depth > 0 and luck < 0.34:
            return "(" + self.condition(columns, depth - 1) + ")"
        kind = self.some_kind(columns)
        if luck < 0.42:
            words = (self.word("IS"), self.one_of("", self.word("NOT")), self.word("NULL"))
            return " ".join((self.expression(kind, columns, depth - 1), *words))
        signs = SIGNS if kind[0] in ("integer", "text") or self.lucky(0.03) else ("=", "=", "<>")
        space, sign = self.space(), self.chance.choice(signs)
        return space.join((self.expression(kind, columns, depth - 1), sign, self.expression(kind, columns, depth - 1)))

    def some_kind(self, columns):
        if columns and self.lucky(0.8):
            return kind_of(self.chance.choice(columns))
        return self.chance.choice((("integer",), ("text",), ("row",)))

    def key_is(self, table):
        """A condition that asks for a key, mostly of a row that is there."""
        column, number = table.columns[0], self.start.tables.index(table)
        keys = [values[0] for where, values in self.server.moments[-1].values() if where == number]
        for session in self.server.sessions.values():
            keys += [values[0] for where, values in session.changes.values() if where == number and values is not None]
        if not keys or self.lucky(0.3):
            return self.name(column.name) + " = " + self.expression(kind_of(column), (), 0)
        key = self.chance.choice(keys)
        if key[0] == "integer" and key[1] >= 0 and self.lucky(0.5):
            return self.name(column.name) + " = %d" % key[1]
        if key[0] == "text" and self.lucky(0.5):
            return self.name(column.name) + " = " + self.string(key[1])
        return self.name(column.name) + " = " + self.bind(key)

    def where(self, table):
        luck = self.chance.random()
        if self.taste.crowded and luck < 0.5:
            sign, bound = self.one_of("<", ">", "<=", ">=", "<>"), self.one_of(0, 1, 2, 500, 998, 999, 1000)
            return " WHERE %s %s %d" % (table.columns[0].name.decode(), sign, bound)
        if self.taste.by_key and luck < 0.85:
            return " WHERE " + self.beside_a_key(table)
        if luck < 0.2:
            return ""
        if luck < 0.65:
            return " " + self.word("WHERE") + " " + self.key_is(table)
        return " " + self.word("WHERE") + " " + self.condition(table.columns, self.chance.choice((0, 1, 2, 3)))

    def beside_a_key(self, table):
        """A condition that asks for a key, and for more: mostly for a part that has a fault in some row."""
        found = self.some_part(table)
        for _ in range(self.chance.choice((0, 0, 1, 1, 1, 2))):
            found += " " + self.chance.choice(("AND", "AND", "AND", "OR")) + " " + self.some_part(table)
        return "NOT (" + found + ")" if self.lucky(0.06) else found

    def some_part(self, table):
        luck = self.chance.random()
        numbers = [column.name.decode() for column in table.columns if column.kind[0] == "integer"]
        if luck < 0.5:
            left, right = self.key_is(table).split(" = ", 1)
            found = self.one_of(left + " = " + right, left + " = " + right, right + " = " + left)
            if self.lucky(0.06):
                found = found.replace(" = ", self.one_of(" <> ", " <= ", " >= "))
            return "(" + found + ")" if self.lucky(0.1) else found
        if luck < 0.75 and numbers:
            made = self.one_of("%s / %s = 1", "1 / (%s - %s) = 0", "%s + %s > 2", "%s - %s < 9", "%s * %s >= 0")
            return made % (self.chance.choice(numbers), self.chance.choice(numbers))
        return self.condition(table.columns, 1)

    def input(self, column, columns):
        """A value for a column."""
        luck = self.chance.random()
        if column.kind[0] == "integer":
            if luck < 0.45:
                return str(self.chance.randrange(6))
            return self.bind(self.fitting(column)) if luck < 0.6 else self.expression(("integer",), columns, self.chance.choice((0, 1, 2)))
        if column.kind[0] == "text" and luck < 0.6:
            value = self.fitting(column)
            return self.bind(value) if self.lucky(0.5) else self.string(value[1])
        return self.expression(kind_of(column), columns, 1)

    def fitting(self, column):
        return fitting_value(self.chance, self.taste.texts, column)

    def statement(self):
        """A text."""
        if self.taste.one_moment and self.lucky(0.3):
            return self.one_of("SET TRANSACTION READ ONLY", "COMMIT", "COMMIT")
        tables, luck = self.start.tables, self.chance.random()
        if not tables:
            return self.chance.choice(ODD).format("nope") if luck < 0.3 else self.short(luck)
        table = tables[0] if self.taste.crowded and self.lucky(0.8) else self.chance.choice(tables)
        spelled = "nope" if self.lucky(0.015) else self.name(table.name)
        if self.taste.ids and self.lucky(0.5):
            return self.of_an_id(table, spelled)
        if luck < 0.24:
            return self.select(table, spelled)
        if luck < 0.42:
            return self.insert(table, spelled)
        if luck < 0.64:
            return self.update(table, spelled)
        if luck < 0.71:
            where = self.where(table) or (" WHERE " + self.key_is(table) if self.lucky(0.7) else "")
            return self.word("DELETE") + " " + self.word("FROM") + " " + spelled + where
        return self.chance.choice(ODD).format(spelled) if luck > 0.985 else self.short((luck - 0.7) / 0.3)

    def short(self, luck):
        """A statement on no table."""
        if luck < 0.43:
            return self.word("COMMIT")
        if luck < 0.57:
            return self.word("ROLLBACK")
        if luck < 0.66:
            return self.word("SET") + " " + self.word("TRANSACTION") + " READ ONLY"
        if luck < 0.76:
            return "SAVEPOINT " + self.one_of("p", "p", "q", "P", "acct")
        if luck < 0.87:
            return "ROLLBACK TO " + self.one_of("", "SAVEPOINT ") + self.one_of("p", "p", "q", "r")
        return "SELECT " + self.some_sequence() + ".NEXTVAL FROM " + self.word("DUAL")

    def some_sequence(self):
        names = [name for name, _ in self.start.sequences]
        return self.name(self.chance.choice(names)) if names and self.lucky(0.95) else "nosuch"

    def of_an_id(self, table, spelled):
        """A statement that draws, makes a row, or speaks of ids."""
        luck = self.chance.random()
        rows = [value for value in self.ids if value[0] == "row"]
        drawn = [column for column in table.columns if column.kind[0] == "draw"]
        if drawn and luck < 0.35:
            column = self.chance.choice(drawn)
            known = [value for value in self.ids if value[:2] == column.kind]
            if known:
                name, verb = column.name.decode(), self.one_of("SELECT *", "SELECT *", "SELECT ROWID", "DELETE")
                return "%s FROM %s WHERE %s = %s" % (verb, spelled, name, self.bind(self.chance.choice(known[-4:])))
        if rows and luck < 0.6:
            verb, sign = self.one_of("SELECT *", "SELECT ROWID", "DELETE"), self.one_of("=", "=", "<>")
            return "%s FROM %s WHERE ROWID %s %s" % (verb, spelled, sign, self.bind(self.chance.choice(rows[-4:])))
        if luck < 0.85 or not self.start.sequences:
            return "INSERT INTO %s VALUES (%s)" % (spelled, ", ".join(self.new_input(column) for column in table.columns))
        return "SELECT " + self.some_sequence() + ".NEXTVAL FROM dual"

    def new_input(self, column):
        if column.kind[0] == "draw":
            return self.start.sequences[column.kind[1]][0].decode() + ".NEXTVAL"
        return str(self.chance.randrange(200)) if column.kind[0] == "integer" else "'%d'" % self.chance.randrange(9)

    def select(self, table, spelled):
        luck = self.chance.random()
        if luck < 0.3 and not self.taste.crowded:
            items = "*"
        elif luck < 0.6 or self.taste.crowded:
            totals = ", ".join(self.total(table) for _ in range(self.chance.choice((1, 1, 2, 3))))
            return self.word("SELECT") + " " + totals + " FROM " + spelled + self.where(table)
        else:
            items = self.one_of(",", ", ").join(self.item(table) for _ in range(self.chance.choice((1, 1, 2, 3))))
        text = self.word("SELECT") + " " + items + " " + self.word("FROM") + " " + spelled + self.where(table)
        if self.lucky(0.4):
            keys = ", ".join(self.order_key(table) for _ in range(self.chance.choice((1, 1, 2, 3))))
            text += " " + self.word("ORDER") + " " + self.word("BY") + " " + keys
        return text + (" " + self.word("FOR") + " " + self.word("UPDATE") if self.lucky(0.25) else "")

    def total(self, table):
        word = self.one_of("COUNT", "SUM", "MIN", "MAX")
        if word == "COUNT":
            return self.word(word) + self.one_of("(*)", " ( * )")
        kind = ("integer",) if word == "SUM" else self.one_of(("integer",), ("text",))
        return self.word(word) + "(" + self.expression(kind, table.columns, self.chance.choice((0, 0, 1, 2))) + ")"

    def item(self, table):
        column = self.chance.choice(table.columns)
        if self.lucky(0.4):
            return self.name(column.name)
        kind = self.one_of(kind_of(column), kind_of(column), ("row",), ("null",))
        return self.expression(kind, table.columns, self.chance.choice((0, 1, 2)))

    def order_key(self, table):
        sortable = [column for column in table.columns if column.kind[0] != "draw"]
        column = self.chance.choice(sortable if sortable and self.lucky(0.97) else table.columns)
        return self.name(column.name) + self.one_of("", " ASC", " DESC", " desc")

    def insert(self, table, spelled):
        used, names = list(table.columns), ""
        if self.lucky(0.35):
            used = self.chance.sample(used, self.chance.randint(1, len(used)))
            if table.columns[0] not in used and self.lucky(0.85):
                used.insert(0, table.columns[0])
            spellings = [self.name(column.name) for column in used]
            if self.lucky(0.05):
                spellings[0] = self.one_of(spellings[-1], "nocol")
            names = " (" + ", ".join(spellings) + ")"
        inputs = [self.some_input(table, column) for column in used] + (["1"] if self.lucky(0.02) else [])
        values = self.word("VALUES") + self.one_of(" (", "(") + ", ".join(inputs) + ")"
        return self.word("INSERT") + " " + self.word("INTO") + " " + spelled + names + " " + values

    def some_input(self, table, column):
        if column.kind[0] == "draw" and self.lucky(0.8):
            return self.name(self.start.sequences[column.kind[1]][0]) + self.one_of(".", " . ") + self.word("NEXTVAL")
        luck = self.chance.random()
        if luck < 0.03:
            return self.some_sequence() + ".NEXTVAL"
        if luck < 0.05:
            return self.one_of("ROWID", table.columns[0].name.decode(), "nocol")
        return self.input(column, ())

    def update(self, table, spelled):
        columns = self.chance.sample(table.columns, self.chance.randint(1, min(2, len(table.columns))))
        if self.lucky(0.6):
            columns = [column for column in columns if column is not table.columns[0]] or columns
        settings = []
        for column in columns:
            name = self.name(column.name) if self.lucky(0.99) else "nocol"
            settings.append(name + self.one_of("=", " = ") + (self.input(column, table.columns) if self.lucky(0.95) else "ROWID"))
        if self.lucky(0.02):
            settings.append(settings[0])
        if self.taste.crowded and len(table.columns) > 1 and self.lucky(0.6):
            last = table.columns[-1].name.decode()
            settings = [last + " = " + last]
        return self.word("UPDATE") + " " + spelled + " " + self.word("SET") + " " + ", ".join(settings) + self.where(table)


def kind_of(column):
    return column.kind if column.kind[0] == "draw" else column.kind[:1]


def fitting_value(chance, texts, column):
    """A value of numbers or texts that the column takes."""
    if column.kind[0] == "integer":
        fitting = [number for number in (*INTEGERS, *column.kind[1:]) if column.kind[1] <= number <= column.kind[2]]
        return ("integer", chance.choice(fitting))
    return ("text", chance.choice([text for text in texts if len(text) <= column.kind[1]]))
