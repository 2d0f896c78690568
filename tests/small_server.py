"""A small SQL server with one session, which answers the calls of the made conversations. It is written from the rules of
docs/SQL.md and docs/TRANSACTIONS.md alone.

A value is None, an int, a str, ("row", n) or ("draw", sequence, n). A call is ("connect", service), ("sql", text, binds) or
("disconnect",). A reply is (outcome, draws, made), and an outcome a tuple that begins with its word.

With one session nothing is held by another one, so there is no fault 20. Conversations are too short for fault 33, and no
column holds texts, so there is no fault 24.
"""
import re

LEAST, GREATEST = -(2**63), 2**63 - 1
MOST_NESTED = 32
MOST_MEMBERS = 16
LONGEST_NAME = 30
RANKS = (10, 28, 29, 14, 11, 12, 13, 16, 15, 27, 32, 25, 26, 22, 23, 21)
WORDS = """AND ASC BY COMMIT COUNT DELETE DESC DUAL FOR FROM INSERT INTO IS MAX MIN NEXTVAL NOT NULL ONLY OR ORDER READ
ROLLBACK ROWID SAVEPOINT SELECT SET SUM TO TRANSACTION UPDATE VALUES WHERE"""
KEYWORDS = frozenset(WORDS.split())
COMPARISONS = {"=": "=", "<>": "<>", "!=": "<>", "<": "<", "<=": "<=", ">": ">", ">=": ">="}
TOKEN = re.compile(
    r"[ \t\r\n]*(?:(?P<word>[A-Za-z][A-Za-z0-9_]*)|(?P<number>[0-9]+)(?![A-Za-z_])|'(?P<text>(?:[^']|'')*)'(?!')"
    r"|:(?P<bind>1[0-6]|[1-9])(?![0-9A-Za-z_])|(?P<sign><>|!=|<=|>=|[(),.*+\-/=<>;]))",
    re.DOTALL,
)

START = """start 1
level 1
seq s 10
svc main rw
svc report ro
svc test rw
table acct
col id int -1000000 1000000 notnull
col bal int -1000000 1000000 null
table item
col no seq s notnull
col qty int 0 1000 null
row 1 0 [i1,i100]
row 2 0 [i2,i50]
nextrow 3
sessions 1
end
"""
SERVICES = {"main": "rw", "report": "ro", "test": "rw"}
SEQUENCES = {"s": 0}
# Of each table its columns: name, kind, range of numbers, not null.
TABLES = {
    "acct": (0, (("id", "int", (-1000000, 1000000), True), ("bal", "int", (-1000000, 1000000), False))),
    "item": (1, (("no", "seq 0", None, True), ("qty", "int", (0, 1000), False))),
}


class Refused(Exception):
    """A call is refused with this fault."""

    def __init__(self, fault):
        super().__init__(fault)
        self.fault = fault


def lowest(faults):
    """Refuses with the fault of lowest rank, where there is one."""
    if faults:
        raise Refused(min(faults, key=RANKS.index))


def tokens_of(text):
    """The tokens of a statement: pairs of a kind and a value, with an end behind them."""
    tokens, place = [], 0
    while text[place:].strip(" \t\r\n"):
        found = TOKEN.match(text, place)
        if not found:
            raise Refused(10)
        tokens.append(token_of(found.lastgroup, found[found.lastgroup]))
        place = found.end()
    return tokens + [("end", "")]


def token_of(group, text):
    """A token from its group and its text."""
    if group == "word":
        if text.upper() in KEYWORDS:
            return "keyword", text.upper()
        if len(text) > LONGEST_NAME:
            raise Refused(10)
        return "name", text.lower()
    if group == "number":
        if int(text) > GREATEST:
            raise Refused(10)
        return "int", int(text)
    if group == "text":
        return "text", text.replace("''", "'")
    return ("bind", int(text)) if group == "bind" else ("sign", text)


class Reader:
    """Reads one statement from its tokens."""

    def __init__(self, text):
        self.tokens = tokens_of(text)

    def takes(self, *words):
        """Whether these keywords or signs come next. They are taken then."""
        if [value for kind, value in self.tokens[: len(words)] if kind in ("keyword", "sign")] != list(words):
            return False
        del self.tokens[: len(words)]
        return True

    def needs(self, *words):
        if not self.takes(*words):
            raise Refused(10)

    def take(self, wanted):
        kind, value = self.tokens[0]
        if kind != wanted:
            raise Refused(10)
        del self.tokens[0]
        return value

    def listed(self, member):
        """Members with commas between them."""
        members = [member()]
        while self.takes(","):
            members.append(member())
        if len(members) > MOST_MEMBERS:
            raise Refused(10)
        return members

    def statement(self):
        body = self.body()
        self.takes(";")
        if self.tokens != [("end", "")]:
            raise Refused(10)
        return body

    def body(self):
        if self.takes("COMMIT"):
            return ("commit",)
        if self.takes("ROLLBACK"):
            return ("rollback",)
        if self.takes("SET", "TRANSACTION", "READ", "ONLY"):
            return ("read only",)
        if self.takes("SELECT"):
            return self.select()
        if self.takes("INSERT", "INTO"):
            return self.insert()
        if self.takes("UPDATE"):
            table = self.take("name")
            self.needs("SET")
            return "update", table, self.listed(self.setting), self.where()
        self.needs("DELETE", "FROM")
        return "delete", self.take("name"), self.where()

    def select(self):
        if [kind for kind, _ in self.tokens[:3]] == ["name", "sign", "keyword"] and self.tokens[2][1] == "NEXTVAL":
            name = self.nextval()
            self.needs("FROM", "DUAL")
            return "draw", name
        if self.tokens[0][1] in ("COUNT", "SUM", "MIN", "MAX") and self.tokens[0][0] == "keyword":
            totals = self.listed(self.total)
            self.needs("FROM")
            return "totals", totals, self.take("name"), self.where()
        items = None if self.takes("*") else self.listed(self.expression)
        self.needs("FROM")
        table, where, keys = self.take("name"), self.where(), []
        if self.takes("ORDER", "BY"):
            keys = self.listed(self.key)
        return "select", items, table, where, keys, self.takes("FOR", "UPDATE")

    def nextval(self):
        name = self.take("name")
        self.needs(".", "NEXTVAL")
        return name

    def total(self):
        if self.takes("COUNT", "(", "*", ")"):
            return "COUNT", None
        word = self.take("keyword")
        if word not in ("SUM", "MIN", "MAX"):
            raise Refused(10)
        self.needs("(")
        inner = self.expression()
        self.needs(")")
        return word, inner

    def key(self):
        name = self.take("name")
        if self.takes("DESC"):
            return name, True
        self.takes("ASC")
        return name, False

    def insert(self):
        table, names = self.take("name"), None
        if self.takes("("):
            names = self.listed(lambda: self.take("name"))
            self.needs(")")
        self.needs("VALUES", "(")
        inputs = self.listed(self.input)
        self.needs(")")
        return "insert", table, names, inputs

    def input(self):
        if self.tokens[0][0] == "name" and self.tokens[1] == ("sign", "."):
            return "next", self.nextval()
        return self.expression()

    def setting(self):
        name = self.take("name")
        self.needs("=")
        return name, self.expression()

    def where(self):
        return self.expression() if self.takes("WHERE") else None

    def grouped(self, signs, member, depth):
        """Operators of one line of the grammar, which group to the left."""
        left = member(depth)
        while self.tokens[0][0] in ("sign", "keyword") and self.tokens[0][1] in signs:
            sign = self.tokens.pop(0)[1]
            left = "bin", sign, left, member(depth)
        return left

    def expression(self, depth=0):
        return self.grouped(("OR",), self.conjunction, depth)

    def conjunction(self, depth):
        return self.grouped(("AND",), self.negation, depth)

    def negation(self, depth):
        if self.takes("NOT"):
            return "not", self.negation(deeper(depth))
        return self.comparison(depth)

    def comparison(self, depth):
        left = self.sum(depth)
        if self.takes("IS", "NOT", "NULL"):
            return "not null", left
        if self.takes("IS", "NULL"):
            return "is null", left
        if self.tokens[0][0] == "sign" and self.tokens[0][1] in COMPARISONS:
            sign = COMPARISONS[self.tokens.pop(0)[1]]
            return "bin", sign, left, self.sum(depth)
        return left

    def sum(self, depth):
        return self.grouped(("+", "-"), self.term, depth)

    def term(self, depth):
        return self.grouped(("*", "/"), self.factor, depth)

    def factor(self, depth):
        if self.takes("-"):
            return "neg", self.factor(deeper(depth))
        if self.takes("("):
            inner = self.expression(deeper(depth))
            self.needs(")")
            return inner
        if self.takes("NULL"):
            return ("null",)
        if self.takes("ROWID"):
            return ("rowid",)
        kind, value = self.tokens[0]
        if kind not in ("int", "text", "bind", "name"):
            raise Refused(10)
        del self.tokens[0]
        return kind, value


def deeper(depth):
    if depth == MOST_NESTED:
        raise Refused(10)
    return depth + 1


def parts_of(tree):
    """The parts of an expression, itself among them."""
    if tree is None:
        return
    yield tree
    for part in tree[1:]:
        if isinstance(part, tuple):
            yield from parts_of(part)


def kind_of_value(value):
    if value is None:
        return "null"
    if isinstance(value, tuple):
        return "row" if value[0] == "row" else f"seq {value[1]}"
    return "int" if isinstance(value, int) else "text"


class Kinds:
    """The kinds of expressions over one table's columns."""

    def __init__(self, columns, binds):
        self.columns = {name: kind for name, kind, _, _ in columns}
        self.binds = binds

    def of(self, tree):
        word = tree[0]
        if word in ("null", "int", "text"):
            return word
        if word == "rowid":
            return "row"
        if word == "name":
            return self.columns[tree[1]]
        if word == "bind":
            return kind_of_value(self.binds[tree[1] - 1])
        if word == "neg":
            return self.fits(self.of(tree[1]), ("int", "null"), "int")
        if word == "not":
            return self.fits(self.of(tree[1]), ("truth",), "truth")
        if word in ("is null", "not null"):
            return self.plain(tree[1]) and "truth"
        return self.of_two(tree[1], self.of(tree[2]), self.of(tree[3]))

    def of_two(self, sign, left, right):
        if sign in ("AND", "OR"):
            return self.fits(left, ("truth",), "truth") and self.fits(right, ("truth",), "truth")
        if sign in ("+", "-", "*", "/"):
            return self.fits(left, ("int", "null"), "int") and self.fits(right, ("int", "null"), "int")
        if "truth" in (left, right) or (left != right and "null" not in (left, right)):
            raise Refused(15)
        if sign not in ("=", "<>") and not {left, right} <= {"int", "text", "null"}:
            raise Refused(15)
        return "truth"

    def plain(self, tree):
        """The kind of what may be an item."""
        kind = self.of(tree)
        if kind == "truth":
            raise Refused(15)
        return kind

    @staticmethod
    def fits(kind, wanted, given):
        if kind not in wanted:
            raise Refused(15)
        return given


class Values:
    """The values of expressions at one row. Faults are noted in a set, and what has one is the class itself."""

    def __init__(self, columns, binds, row, values, faults):
        self.held = {name: value for (name, _, _, _), value in zip(columns, values)}
        self.binds, self.row, self.faults = binds, row, faults

    def of(self, tree):
        word = tree[0]
        if word in ("int", "text"):
            return tree[1]
        if word == "null":
            return None
        if word == "rowid":
            return "row", self.row
        if word == "name":
            return self.held[tree[1]]
        if word == "bind":
            return self.binds[tree[1] - 1]
        operands = [self.of(part) for part in tree[1:] if isinstance(part, tuple)]
        if Values in operands:
            return Values
        if word == "neg":
            return None if operands[0] is None else self.number(-operands[0])
        if word == "not":
            return None if operands[0] is None else not operands[0]
        if word in ("is null", "not null"):
            return (operands[0] is None) == (word == "is null")
        return self.of_two(tree[1], *operands)

    def of_two(self, sign, left, right):
        if sign in ("AND", "OR"):
            decides = sign == "OR"
            if decides in (left, right):
                return decides
            return None if None in (left, right) else not decides
        if left is None or right is None:
            return None
        if sign == "/" and right == 0:
            self.faults.add(25)
            return Values
        if sign in ("+", "-", "*", "/"):
            quotient = abs(left) // abs(right) if sign == "/" else 0
            results = {"+": left + right, "-": left - right, "*": left * right}
            return self.number(results.get(sign, quotient if (left < 0) == (right < 0) else -quotient))
        if sign in ("=", "<>"):
            return (left == right) == (sign == "=")
        return {"<": left < right, "<=": left <= right, ">": left > right, ">=": left >= right}[sign]

    def number(self, number):
        if LEAST <= number <= GREATEST:
            return number
        self.faults.add(26)
        return Values


class Server:
    """One session on the start. A change is a row's table and values, or its table and None where it is gone."""

    def __init__(self):
        self.rows = {1: (0, (1, 100)), 2: (0, (2, 50))}
        self.next_row, self.next_values = 3, {0: 10}
        self.made, self.drawn = {1, 2}, set()
        self.rights = None
        self.commits = 0
        self.touched = False
        self.end_transaction()

    def end_transaction(self):
        self.changes, self.holds, self.read_only = {}, False, False

    def given(self, value):
        """Whether the value is no id, or one that was given before."""
        if not isinstance(value, tuple):
            return True
        return value[1] in self.made if value[0] == "row" else value[1:] in self.drawn

    def step(self, call):
        """The reply to a call."""
        self.draws, self.new_row = [], None
        try:
            outcome = self.outcome(call)
        except Refused as refused:
            outcome = "refused", refused.fault
        self.touched = self.touched or bool(self.draws or self.changes or self.holds)
        return outcome, tuple(self.draws), self.new_row

    def outcome(self, call):
        if call[0] == "connect":
            if self.rights:
                raise Refused(29)
            if call[1] not in SERVICES:
                raise Refused(14)
            self.rights = SERVICES[call[1]]
            return ("connected",)
        if call[0] == "disconnect":
            if not self.rights:
                raise Refused(28)
            self.end_transaction()
            self.rights = None
            return ("disconnected",)
        statement = Reader(call[1]).statement()
        if not self.rights:
            raise Refused(28)
        return self.run(statement, list(call[2]))

    def run(self, statement, binds):
        word = statement[0]
        if word == "commit":
            return self.commit()
        if word == "rollback":
            self.end_transaction()
            return ("rolledback",)
        if word == "read only":
            if self.read_only or self.changes or self.holds:
                raise Refused(32)
            self.read_only = True
            return ("marked",)
        if word == "draw":
            if statement[1] not in SEQUENCES:
                raise Refused(13)
            self.writable()
            return "rows", ((self.draw(SEQUENCES[statement[1]]),),)
        return {"select": self.select, "totals": self.totals, "insert": self.insert, "update": self.update,
                "delete": self.delete}[word](binds, *statement[1:])

    def writable(self):
        if self.rights == "ro" or self.read_only:
            raise Refused(27)

    def draw(self, sequence):
        value = "draw", sequence, self.next_values[sequence]
        self.next_values[sequence] += 1
        self.drawn.add(value[1:])
        self.draws.append(value)
        return value

    def commit(self):
        images = tuple(sorted((row, table, values) for row, (table, values) in self.changes.items()))
        for row, table, values in images:
            self.rows.pop(row, None)
            if values is not None:
                self.rows[row] = table, values
        self.commits += bool(images)
        self.end_transaction()
        return "committed", images

    def visible(self, table):
        """The rows of a table that the session sees, ascending."""
        seen = {**self.rows, **self.changes}
        return [(row, values) for row, (of, values) in sorted(seen.items()) if of == table and values is not None]

    @staticmethod
    def table(name):
        if name not in TABLES:
            raise Refused(11)
        return TABLES[name]

    @staticmethod
    def names_known(columns, trees, names=(), once=False):
        """The second check: each column is there, and none stands twice where it may not."""
        known = [column[0] for column in columns]
        used = [part[1] for tree in trees for part in parts_of(tree) if part[0] == "name"]
        if not set(used) | set(names) <= set(known) or (once and len(set(names)) < len(names)):
            raise Refused(12)

    @staticmethod
    def binds_there(binds, trees):
        if any(part[0] == "bind" and part[1] > len(binds) for tree in trees for part in parts_of(tree)):
            raise Refused(16)

    def matching(self, table, columns, binds, where, faults):
        """The rows whose condition is true, each with what gives the values of expressions there."""
        found = []
        for row, values in self.visible(table):
            at = Values(columns, binds, row, values, faults)
            if where is None or at.of(where) is True:
                found.append((row, values, at))
        return found

    @staticmethod
    def condition(kinds, where):
        if where is not None and kinds.of(where) != "truth":
            raise Refused(15)

    def select(self, binds, items, table, where, keys, for_update):
        number, columns = self.table(table)
        trees = [("name", column[0]) for column in columns] if items is None else items
        self.names_known(columns, [*trees, where], [name for name, _ in keys])
        self.binds_there(binds, [*trees, where])
        kinds = Kinds(columns, binds)
        for tree in trees:
            kinds.plain(tree)
        self.condition(kinds, where)
        if any(kinds.columns[name] not in ("int", "text") for name, _ in keys):
            raise Refused(15)
        if for_update:
            self.writable()
        faults = set()
        found = self.matching(number, columns, binds, where, faults)
        rows = [(at.held, tuple(at.of(tree) for tree in trees)) for _, _, at in found]
        lowest(faults)
        self.holds = self.holds or (for_update and bool(found))
        for name, descending in reversed(keys):
            rows.sort(key=lambda row: (row[0][name] is None, row[0][name] or 0), reverse=descending)
        return "rows", tuple(row for _, row in rows)

    def totals(self, binds, totals, table, where):
        number, columns = self.table(table)
        trees = [tree for _, tree in totals]
        self.names_known(columns, [*trees, where])
        self.binds_there(binds, [*trees, where])
        kinds = Kinds(columns, binds)
        for word, tree in totals:
            if tree is not None:
                kinds.fits(kinds.of(tree), ("int", "null") if word == "SUM" else ("int", "text", "null"), True)
        self.condition(kinds, where)
        faults = set()
        found = self.matching(number, columns, binds, where, faults)
        row = tuple(self.total(word, tree, found, faults) for word, tree in totals)
        lowest(faults)
        return "rows", (row,)

    @staticmethod
    def total(word, tree, found, faults):
        if word == "COUNT":
            return len(found)
        values = [value for value in (at.of(tree) for _, _, at in found) if value is not None and value is not Values]
        if not values:
            return None
        total = {"SUM": sum, "MIN": min, "MAX": max}[word](values)
        if word == "SUM" and not LEAST <= total <= GREATEST:
            faults.add(26)
        return total

    def insert(self, binds, table, names, inputs):
        number, columns = self.table(table)
        trees = [tree for tree in inputs if tree[0] != "next"]
        if any(part[0] in ("name", "rowid") for tree in trees for part in parts_of(tree)):
            raise Refused(12)
        self.names_known(columns, [], names or (), once=True)
        if any(tree[0] == "next" and tree[1] not in SEQUENCES for tree in inputs):
            raise Refused(13)
        self.binds_there(binds, trees)
        listed = [column[0] for column in columns] if names is None else names
        kinds = Kinds(columns, binds)
        given = [f"seq {SEQUENCES[tree[1]]}" if tree[0] == "next" else kinds.of(tree) for tree in inputs]
        if len(given) != len(listed):
            raise Refused(15)
        for name, kind in zip(listed, given):
            kinds.fits(kind, ("null", kinds.columns[name]), True)
        self.writable()
        drawn = {sequence: self.draw(sequence) for sequence in sorted({SEQUENCES[t[1]] for t in inputs if t[0] == "next"})}
        faults = set()
        at = Values(columns, binds, None, (), faults)
        values = [drawn[SEQUENCES[tree[1]]] if tree[0] == "next" else at.of(tree) for tree in inputs]
        lowest(faults)
        of = dict(zip(listed, values))
        self.change(number, columns, {self.next_row: tuple(of.get(column[0]) for column in columns)})
        self.new_row = self.next_row
        self.made.add(self.new_row)
        self.next_row += 1
        return "count", 1

    def update(self, binds, table, settings, where):
        number, columns = self.table(table)
        trees = [tree for _, tree in settings]
        self.names_known(columns, [*trees, where], [name for name, _ in settings], once=True)
        self.binds_there(binds, [*trees, where])
        kinds = Kinds(columns, binds)
        for name, tree in settings:
            kinds.fits(kinds.of(tree), ("null", kinds.columns[name]), True)
        self.condition(kinds, where)
        self.writable()
        faults, images = set(), {}
        for row, values, at in self.matching(number, columns, binds, where, faults):
            new = {**at.held, **{name: at.of(tree) for name, tree in settings}}
            images[row] = tuple(new.values())
        lowest(faults)
        self.change(number, columns, images)
        return "count", len(images)

    def delete(self, binds, table, where):
        number, columns = self.table(table)
        self.names_known(columns, [where])
        self.binds_there(binds, [where])
        self.condition(Kinds(columns, binds), where)
        self.writable()
        faults = set()
        found = self.matching(number, columns, binds, where, faults)
        lowest(faults)
        self.changes.update({row: (number, None) for row, _, _ in found})
        return "count", len(found)

    def change(self, table, columns, images):
        """Takes new images of rows, or refuses them."""
        faults = set()
        for values in images.values():
            for (_, _, limits, not_null), value in zip(columns, values):
                if value is None and not_null:
                    faults.add(22)
                if value is not None and limits and not limits[0] <= value <= limits[1]:
                    faults.add(23)
        keys = [values[0] for row, values in {**dict(self.visible(table)), **images}.items() if values[0] is not None]
        if len(set(keys)) < len(keys):
            faults.add(21)
        lowest(faults)
        self.changes.update({row: (table, values) for row, values in images.items()})
