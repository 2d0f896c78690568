"""Captures and their replays, as files: those of the examples, of many calls, of texts that would harm a page, and random ones.

Enters: how many calls and sessions, or a source of chance. Leaves: `Files`, the files of a capture and of a run by name.
"""
import importlib.machinery
import importlib.util
import random
import sys
from pathlib import Path
from typing import NamedTuple

HERE = Path(__file__).resolve().parent
TOP = HERE.parent.parent
sys.path.insert(0, str(HERE.parent))

from make_page import files_in
from outside.captures import Clients, good_change, random_shape
from outside.changes import changed_start
from outside.files import CLASSES, CapturedCall, Report, joined, write_capture
from outside.legality import facts_of, wrote_something
from outside.replay import Job, Replay
from outside.report import files_of
from outside.schema import Column, Row, Start, Table
from outside.server import Server
from outside.values import TEXT_LIMIT

HELD = "refused 20 [] -"
EXAMPLES = (
    ("examples/first", "examples/first/replayed"), ("examples/first", "examples/first/read-only"),
    ("examples/sessions", "examples/sessions/replayed"), ("examples/upgrade", "examples/upgrade/replayed"),
    ("examples/upgrade", "examples/upgrade/level-2"),
)
# Texts that would end the script, begin a comment, move what stands beside them, or are not seen.
HOSTILE = (
    "</script><script>alert(1)</script>", "</SCRIPT ><img src=x onerror=alert(1)>", "<!--<script>", "-->]]><!DOCTYPE html>",
    "\\u003c/script\\u003e{data}{viewer.js}", "&lt;b&gt; &amp; &#60;", "\"'`${alert(1)}`\\", "a\0b\x01c\x1b[31md\x7fe\x85f\x9bg",
    "one\ntwo\r\nthree\tfour", "abc\u202etxt.exe\u202c\u2066\u2069\u200f\u061c", "\u05d0\u05d1\u05d2 1 2 3 \u0627\u0644",
    "a\u200bb\u200dc\ufeffd\u00ade\u00a0f\u3000g\u2028h\u2029i", "Z" + "\u0301" * 200, "\U000e0041\U000e0042\ufdd0\uffff\U0010ffff\ue000",
    "x" * 1000, "\U0001f468\u200d\U0001f469\u200d\U0001f467 \U0001f3f3\ufe0f", "__proto__", "constructor", "%41%u0041%", "",
)


class Files(NamedTuple):
    """The files of a capture and of a run, with the names of their folders."""

    capture: str
    captured: dict
    out: str
    replayed: dict


def example(capture, out):
    return Files(capture, files_in(TOP / capture), out, files_in(TOP / out))


def bench_run():
    """The module `bench/run`, which has the generated capture."""
    loader = importlib.machinery.SourceFileLoader("bench_run", str(TOP / "bench/run"))
    module = importlib.util.module_from_spec(importlib.util.spec_from_loader("bench_run", loader))
    loader.exec_module(module)
    return module


class Crowd:
    """The generated capture replayed without waits, by sessions that run side by side as chance has it."""

    def __init__(self, calls, sessions, seed=1):
        self.chance, bench = random.Random(seed), bench_run()
        self.captured = {name: text.encode() for name, text in bench.generated(calls, sessions).items()}
        self.lines = [self.captured[f"session-{session:03}.cap"].decode().split("\n")[1:-2] for session in range(sessions)]
        self.balances = [bench.BALANCE] * (bench.ROWS + 1)
        self.holders, self.changes = {}, [{} for _ in range(sessions)]
        self.events, self.differing, self.sheet = [], [], []

    def answer(self, session, call):
        """The reply to a call of the generated capture."""
        if call.startswith("connect"):
            return "connected [] -"
        if call.startswith("sql tCOMMIT"):
            changed = sorted(self.changes[session].items())
            self.balances = [dict(changed).get(row, balance) for row, balance in enumerate(self.balances)] if changed else self.balances
            self.holders = {row: holder for row, holder in self.holders.items() if holder != session}
            self.changes[session] = {}
            return "committed " + (";".join(f"{row}:0:[i{row},i{balance}]" for row, balance in changed) or "-") + " [] -"
        row = int(call[call.rindex("[i") + 2:-1])
        found = self.changes[session].get(row, self.balances[row])
        if call.startswith("sql tSELECT"):
            return f"rows [i{found}] [] -"
        if self.holders.setdefault(row, session) != session:
            return HELD
        self.changes[session][row] = found + 1
        return "count 1 [] -"

    def run(self):
        """Each session in turn starts its next call, or has the one that it started answered."""
        places, under_way = [0] * len(self.lines), [False] * len(self.lines)
        left = [session for session, lines in enumerate(self.lines) if lines]
        while left:
            session = self.chance.choice(left)
            line = self.lines[session][places[session]]
            head, reply = line.split(" > ")
            stamp, began, _, _, _, call = head.split(" ", 5)
            if not under_way[session]:
                before = self.lines[session][places[session] - 1].split(" ")[2] if places[session] else 0
                self.events.append(f"s {stamp} {int(began) - int(before)}")
            else:
                self.hear(int(stamp), session, places[session], reply, self.answer(session, call))
                places[session] += 1
                if places[session] == len(self.lines[session]):
                    left.remove(session)
            under_way[session] = not under_way[session]
        return self

    def hear(self, stamp, session, place, was, now):
        self.events.append(f"a {stamp} {now}")
        if was != now:
            self.differing.append((stamp, session, place, class_of(was, now)))

    def files(self):
        self.differing.sort()
        report = Report(sum(map(len, self.lines)), self.differing)
        causes = [b"stamp,cause", *(b"%d,timing" % line[0] for line in self.differing)]
        journal = joined(line.encode() for line in ("journal 1 off", *self.events, "end"))
        return Files("made", self.captured, "out", {"journal.txt": journal, "report.txt": report.write(), "causes.csv": joined(causes)})


def class_of(was, now):
    """The class of two replies that differ, of the kinds that the generated capture has."""
    if now.startswith("refused"):
        return "new-error"
    return {"rows": "row-contents", "committed": "images"}[now.split(" ")[0]]


def crowd(calls, sessions, seed=1):
    return Crowd(calls, sessions, seed).run().files()


def bare():
    """A capture without a session."""
    start = b"start 1\nlevel 1\nnextrow 1\nsessions 0\nend\n"
    replayed = {"journal.txt": b"journal 1 order\nend\n", "report.txt": Report(0, []).write(), "causes.csv": b"stamp,cause\n"}
    return Files("bare", {"start.cap": start}, "out", replayed)


def long_replies(calls=20, rows=1000):
    """Calls whose replies have many rows of long texts; row 500 is another one in the replay."""
    was = [b"[i%d,t%s]" % (row, b"ab%20" * 150 + b"%d" % row) for row in range(rows)]
    now = [*was[:500], b"[i7,tother]", *was[501:]]
    start = [b"start 1", b"level 1", b"table t", b"col id int 0 1000 notnull", b"col note text 1000 null", b"nextrow 1", b"sessions 1", b"end"]
    lines, events, text = [b"session 1 0"], [b"journal 1 order"], b"sql tSELECT%20%2A%20FROM%20t []"
    for stamp in range(calls):
        lines.append(b"%d %d %d 0 - %s > rows %s [] -" % (stamp, stamp, stamp, text, b"".join(was)))
        events += [b"s %d 0" % stamp, b"a %d rows %s [] -" % (stamp, b"".join(now))]
    report = Report(calls, [(stamp, 0, stamp, "row-contents") for stamp in range(calls)])
    captured = {"start.cap": joined(start), "session-000.cap": joined([*lines, b"end"])}
    return Files("long", captured, "out", {"journal.txt": joined([*events, b"end"]), "report.txt": report.write()})


# Replays by the server that was written from the documents alone.


def recorded(start, calls):
    """The sessions of a capture: `calls` has a session and a call each; each call takes 7 microseconds, and 3 pass before the next."""
    server, sessions, commits = Server(start), [[] for _ in range(1 + max(session for session, _ in calls))], 0
    for stamp, (session, call) in enumerate(calls):
        reply = server.answer(session, call)
        wrote = wrote_something(reply)
        sessions[session].append(CapturedCall(
            session, len(sessions[session]), stamp, 10 * stamp, 10 * stamp + 7, commits, commits + 1 if wrote else None, call, reply))
        commits += wrote
    return sessions


def side_by_side(replay, chance):
    """Has the sessions run side by side: a call that may start starts, or one that is under way is answered, as chance has it."""
    sessions, under_way = sorted(replay.job.of_session), []
    while len(replay.answered) < len(replay.job.calls):
        ready = [stamp for session in sessions if (stamp := replay.pick([session])) is not None]
        if ready and (not under_way or chance.random() < 0.55):
            under_way.append(chance.choice(ready))
            replay.start(under_way[-1])
        else:
            replay.answer(under_way.pop(chance.randrange(len(under_way))))
    return replay


def replayed(capture, start, sessions, target, chance=None, **options):
    """The files of a replay by one lane, or by sessions side by side."""
    calls = sorted((captured for session in sessions for captured in session), key=lambda captured: captured.stamp)
    replay = Replay(Job(start, target, calls, facts_of(start, calls), len(sessions), **options))
    if chance is None:
        replay.run_alone()
    else:
        side_by_side(replay, chance)
    return Files(capture, write_capture(start, sessions), "out", files_of(replay)), replay


def hostile():
    """Each hostile text as a service, as a text that is no statement, and as a value that is inserted, read and committed.

    The replay's server takes no text so long.
    """
    columns = (Column(b"id", ("integer", 1, 1000), True), Column(b"note", ("text", 1000), False))
    start = Start(1, 1)
    start.services, start.tables, start.next_row = [(b"main", "rw")], [Table(b"t", columns)], 1
    calls = [(0, ("connect", b"main"))]
    for place, text in enumerate(HOSTILE):
        data, key = text.encode(), ("integer", place + 1)
        insert = ("sql", b"INSERT INTO t VALUES (:1, '%s')" % data.replace(b"'", b"''"), (key,))
        if len(insert[1]) > TEXT_LIMIT:
            insert = ("sql", b"INSERT INTO t VALUES (:1, :2)", (key, ("text", data)))
        calls += [(1, ("connect", data)), (0, ("sql", data, ())), (0, insert)]
        calls += [(0, ("sql", b"SELECT id, note FROM t WHERE id = :1", (key,))), (0, ("sql", b"COMMIT", ()))]
    target = changed_start(start, b"length,t,note,1\n")
    return replayed("</script><script>alert(2)</script>", start, recorded(start, calls), target)[0]


def random_replay(seed):
    """A random capture, replayed in some mode on some server, and what was worked out of it beside its files."""
    chance = random.Random(seed)
    clients = Clients(chance, random_shape(chance, chance.choice((8, 20, 60)), chance.choice((1, 2, 3, 5)), calm=True, likes={"ids": True}))
    sessions = clients.record()
    try:
        target = changed_start(clients.start, good_change(chance, clients.start)) if chance.random() < 0.5 else clients.start
    except Exception:  # a change that the start's rows break changes nothing here
        target = clients.start
    return replayed("random", clients.start, sessions, target, chance, mode=chance.choice(("off", "scn", "object", "order", "fence")), think=50)


def shop(calls=400, sessions=8, seed=5):
    """Clients of a small shop, replayed side by side on the next server: level 2, a smaller range, and notes of fewer bytes."""
    chance = random.Random(seed)
    start = Start(1, 1)
    start.sequences, start.services = [(b"orders", 100)], [(b"shop", "rw")]
    start.tables = [
        Table(b"acct", (Column(b"id", ("integer", 1, 1000), True), Column(b"bal", ("integer", -1000, 10**6), False))),
        Table(b"purchase", (Column(b"no", ("draw", 0), True), Column(b"acct", ("integer", 1, 1000), True), Column(b"note", ("text", 40), False))),
    ]
    start.rows = [Row(number, 0, (("integer", number), ("integer", chance.choice((1000, 1001, 37, -7, 250))))) for number in range(1, 31)]
    start.next_row = 31
    target = changed_start(start, b"level,2\nlength,purchase,note,24\nrange,acct,bal,-7,1040\n")
    made = [(session, ("connect", b"shop")) for session in range(sessions)]
    server = Server(start)
    for session, call in made:
        server.answer(session, call)
    orders = []
    while len(made) < calls:
        session = chance.randrange(sessions)
        call = shop_call(chance, orders)
        reply = server.answer(session, call)
        orders += reply.draws if reply.outcome[0] == "count" else ()
        made.append((session, call))
    return replayed("captures/shop", start, recorded(start, made), target, chance, mode="scn")[0]


def shop_call(chance, orders):
    account, sql = ("integer", chance.randint(1, 30)), lambda text, *binds: ("sql", text, binds)
    luck = chance.random()
    if luck < 0.26:
        return sql(b"UPDATE acct SET bal = bal + :1 WHERE id = :2", ("integer", chance.choice((-5, 3, 12))), account)
    if luck < 0.40:
        return sql(b"SELECT bal / 2 FROM acct WHERE id = :1", account)
    if luck < 0.52:
        note = chance.choice((b"gift", b"ring twice", b"by hand, behind the house", b"no note"))
        return sql(b"INSERT INTO purchase VALUES (orders.NEXTVAL, :1, :2)", account, ("text", note))
    if luck < 0.62 and orders:
        return sql(b"SELECT acct, note FROM purchase WHERE no = :1", chance.choice(orders))
    if luck < 0.66:
        return sql(b"SELECT COUNT(*), SUM(bal) FROM acct")
    return sql(b"ROLLBACK") if luck < 0.7 else sql(b"COMMIT")
