"""Whether a capture is legal, and what is then known of each call.

Enters: a start and the calls of its sessions. Leaves: the calls by stamp, or the `Refusal` of the first test that fails.
"""
from dataclasses import dataclass

from outside.files import Refusal
from outside.schema import CALL_LIMIT
from outside.server import Server
from outside.statements import ON_A_TABLE, ReadOnly, parse
from outside.values import given_ids, is_id, write_reply


@dataclass
class Fact:
    """What is known of a call: what it saw, its number, and as bits the tables that it references and that it wrote."""

    seen: int
    number: int
    references: int
    wrote: int


def bad(text):
    raise Refusal(3, b"bad capture: " + text)


def by_stamp(sessions):
    calls = [captured for session in sessions for captured in session]
    if len(calls) > CALL_LIMIT:
        bad(b"%d calls" % len(calls))
    counts = {}
    for captured in calls:
        counts[captured.stamp] = counts.get(captured.stamp, 0) + 1
    for stamp in range(len(calls)):
        if counts.get(stamp) != 1:
            bad(b"stamp %d" % stamp)
    return sorted(calls, key=lambda captured: captured.stamp)


def wrote_something(reply):
    return reply.outcome[0] == "committed" and bool(reply.outcome[1])


def number_text(number):
    return b"-" if number is None else b"%d" % number


def test_commits(calls):
    commits = 0
    for captured in calls:
        right = None
        if wrote_something(captured.reply):
            commits += 1
            right = commits
        if captured.number != right:
            bad(b"stamp %d has number %s, not %s" % (captured.stamp, number_text(captured.number), number_text(right)))
    commits = 0
    for captured in calls:
        if captured.seen != commits:
            bad(b"stamp %d saw %d, not %d" % (captured.stamp, captured.seen, commits))
        commits += captured.number is not None


def test_times(calls):
    ended = {}
    for captured in calls:
        if captured.ended < captured.began or captured.began < ended.get(captured.session, 0):
            bad(b"times at stamp %d" % captured.stamp)
        ended[captured.session] = captured.ended


def test_ids(start, calls):
    given = start.ids()
    for captured in calls:
        binds = captured.call[2] if captured.call[0] == "sql" else ()
        if any(is_id(value) and value not in given for value in binds):
            bad(b"unknown id at stamp %d" % captured.stamp)
        given.update(given_ids(captured.reply))


def test_replies(start, calls):
    server = Server(start)
    for captured in calls:
        reply = server.answer(captured.session, captured.call)
        if reply != captured.reply:
            bad(b"stamp %d replied %s, not %s" % (captured.stamp, write_reply(captured.reply), write_reply(reply)))


def legal_calls(start, sessions):
    """The calls by stamp; a `Refusal` where the capture is not legal."""
    calls = by_stamp(sessions)
    test_commits(calls)
    test_times(calls)
    test_ids(start, calls)
    test_replies(start, calls)
    return calls


def fact_of(start, captured):
    references = wrote = 0
    statement = parse(captured.call[1]) if captured.call[0] == "sql" else None
    if isinstance(statement, ReadOnly):
        references = (1 << len(start.tables)) - 1
    elif isinstance(statement, ON_A_TABLE):
        table = start.table_number(statement.table)
        references = 0 if table is None else 1 << table
    if captured.number is not None:
        for image in captured.reply.outcome[1]:
            wrote |= 1 << image.table
    return Fact(captured.seen, captured.number or 0, references | wrote, wrote)


def facts_of(start, calls):
    return [fact_of(start, captured) for captured in calls]


def required(facts, mode, stamp):
    """The stamps that a call requires in a mode, ascending."""
    fact = facts[stamp]
    if mode == "off":
        return []
    if mode == "order" or (mode == "fence" and fact.number):
        return list(range(stamp))
    seen = [other for other, known in enumerate(facts[:stamp]) if known.number and known.number <= fact.seen]
    if mode == "object":
        return [other for other in seen if facts[other].wrote & fact.references]
    return seen


def write_requires(facts):
    """The text of `requires.csv`."""
    lines = [b"stamp,mode,count,last"]
    for stamp in range(len(facts)):
        for mode in ("off", "scn", "object", "order"):
            stamps = required(facts, mode, stamp)
            lines.append(b"%d,%s,%d,%s" % (stamp, mode.encode(), len(stamps), b"%d" % stamps[-1] if stamps else b"-"))
    return b"\n".join(lines) + b"\n"
