"""The lines of `show`: the calls of a replay that differ, and one call, for people.

Enters: the files of a capture and of a run, by name, and a stamp or none. Leaves: the lines as texts, without their ends.
"""
from outside.files import read_journal, read_report, read_session, read_start, session_name
from outside.legality import facts_of, required
from outside.replay import IdMap
from outside.statements import Rollback, parse
from outside.values import given_ids, is_id, read_value

FAULT_WORDS = {
    10: "the text is no statement", 11: "no such table", 12: "no such column, or one named twice", 13: "no such sequence",
    14: "no such service", 15: "parts that do not go together", 16: "no value for a bind", 20: "another session holds the row or key",
    21: "the key is there already", 22: "Null in a column that is not null", 23: "a number out of its column's range",
    24: "a text longer than its column", 25: "division by zero", 26: "overflow", 27: "only reading is allowed",
    28: "the session is not connected", 29: "connected already", 32: "a transaction is under way",
    33: "over 1,000 rows matched or changed", 34: "no such savepoint",
}
CLASS_SENTENCES = {
    "same": "as captured", "new-error": "it is refused, and was not", "gone-error": "it was refused, and is not",
    "mutated-error": "it was refused for one cause, and is for another", "rows-modified": "another number of rows was written",
    "rows-fetched": "another number of rows was read", "row-contents": "as many rows were read, but others",
    "images": "the commit wrote other rows or values", "shape": "the reply is of another kind",
}
CAUSE_SENTENCES = {
    "upgrade": "it met what it met in the capture, and was sent the same: the server answers otherwise",
    "timing": "its session met something else, or another call was sent",
}
# From and to which code points characters are not seen, or move what is.
UNSEEN = (
    (0, 0x1F), (0x7F, 0xA0), (0xAD, 0xAD), (0x34F, 0x34F), (0x61C, 0x61C), (0x115F, 0x1160), (0x1680, 0x1680), (0x17B4, 0x17B5),
    (0x180B, 0x180F), (0x2000, 0x200F), (0x2028, 0x202F), (0x205F, 0x206F), (0x2800, 0x2800), (0x3000, 0x3000), (0x3164, 0x3164),
    (0xE000, 0xF8FF), (0xFDD0, 0xFDEF), (0xFE00, 0xFE0F), (0xFEFF, 0xFEFF), (0xFFA0, 0xFFA0), (0xFFF0, 0xFFFB), (0xFFFE, 0xFFFF),
    (0x13430, 0x1343F), (0x1BCA0, 0x1BCA3), (0x1D173, 0x1D17A), *((plane + 0xFFFE, plane + 0xFFFF) for plane in range(0x10000, 0xE0000, 0x10000)), (0xE0000, 0x10FFFF),
)
ESCAPED = {"\n": "\\n", "\r": "\\r", "\t": "\\t", "\\": "\\\\"}
KEY_WIDTH = 12


def shown_character(character):
    if character in ESCAPED:
        return ESCAPED[character]
    unseen = any(least <= ord(character) <= greatest for least, greatest in UNSEEN)
    return "\\u{%X}" % ord(character) if unseen else character


def shown_text(data):
    """A text's bytes as a person reads them."""
    return "".join(map(shown_character, data.decode()))


def amount(count, word):
    return f"{count} {word}" + ("" if count == 1 else "s")


class Told:
    """All that the files tell."""

    def __init__(self, captured, replayed):
        self.start, count = read_start(captured["start.cap"])
        sessions = [read_session(captured[session_name(number)], number, self.start.version) for number in range(count)]
        self.sessions = sessions
        self.calls = sorted((call for session in sessions for call in session), key=lambda call: call.stamp)
        self.facts = facts_of(self.start, self.calls)
        self.commits = [call.stamp for call in self.calls if call.number is not None]
        self.mode, self.events = read_journal(replayed["journal.txt"])
        self.classes = {line[0]: line[3] for line in read_report(replayed["report.txt"]).lines}
        lines = replayed.get("causes.csv", b"stamp,cause\n").decode().split("\n")[1:-1]
        self.causes = {int(stamp): cause for stamp, cause in (line.split(",") for line in lines)}
        self.sure = {int(line) for line in replayed.get("fence.txt", b"fence 1\nend\n").split(b"\n")[1:-2]}
        self.follow()

    def follow(self):
        """Follows the journal: when each call started and was answered, and which pairs of ids were learnt before and with its answer."""
        self.started, self.answered, self.after, self.replies, self.learnt = {}, {}, {}, {}, {}
        self.map, self.taught, last = IdMap(self.start.ids()), {}, None
        for event, (kind, stamp, what) in enumerate(self.events):
            if kind == "s":
                self.started[stamp], self.after[stamp] = (event, what), last
                continue
            before = len(self.map.learnt)
            self.map.learn(self.calls[stamp].reply, what)
            self.taught.update((identity, stamp) for identity, _ in self.map.learnt[before:])
            self.answered[stamp], self.replies[stamp], self.learnt[stamp], last = event, what, (before, len(self.map.learnt)), stamp

    # How things are spelled.

    def value(self, value):
        if value[0] == "null":
            return "null"
        if value[0] == "text":
            return "'%s'" % shown_text(value[1].replace(b"'", b"''"))
        if value[0] == "row":
            return f"row {value[1]}"
        if value[0] == "draw":
            sequences = self.start.sequences
            name = sequences[value[1]][0].decode() if value[1] < len(sequences) else f"sequence {value[1]}"
            return f"{name} {value[2]}"
        return str(value[1])

    def values(self, values):
        return "(" + ", ".join(map(self.value, values)) + ")"

    def image(self, image):
        tables = self.start.tables
        name = tables[image.table].name.decode() if image.table < len(tables) else f"table {image.table}"
        return f"{name} row {image.row}" + (" gone" if image.values is None else " = " + self.values(image.values))

    def outcome(self, outcome):
        word, what = outcome[0], outcome[-1]
        if word == "rows":
            return "no row" if not what else f"{amount(len(what), 'row')}: " + ", ".join(map(self.values, what))
        if word == "count":
            return f"{amount(what, 'row')} written"
        if word == "committed":
            return "committed nothing" if not what else "committed: " + ", ".join(map(self.image, what))
        if word == "refused":
            return f"refused: {FAULT_WORDS[what]} ({what})"
        return "rolled back" if word == "rolledback" else word

    def reply(self, reply):
        drawn = ", drew " + ", ".join(map(self.value, reply.draws)) if reply.draws else ""
        return self.outcome(reply.outcome) + drawn + ("" if reply.made is None else f", made row {reply.made}")

    def text(self, stamp):
        call = self.calls[stamp].call
        if call[0] == "disconnect":
            return "disconnect"
        return ("connect " if call[0] == "connect" else "") + shown_text(call[1])

    # What is told of a call.

    def one(self, stamp):
        """The pairs of a key and what is behind it."""
        captured = self.calls[stamp]
        kind, cause = self.classes.get(stamp, "same"), self.causes.get(stamp)
        binds = captured.call[2] if captured.call[0] == "sql" else ()
        yield "call", str(stamp)
        yield "session", f"{captured.session}, its call {captured.place}"
        yield "text", self.text(stamp)
        yield from (("bind", f":{place} = {self.value(value)}") for place, value in enumerate(binds, 1))
        yield "class", f"{kind}: {CLASS_SENTENCES[kind]}"
        if cause is not None:
            yield "cause", f"{cause}: {CAUSE_SENTENCES[cause]}"
        if stamp in self.sure:
            yield "sure", "a read that is sure to answer as captured"
        yield "captured", self.reply(captured.reply)
        yield "replayed", self.reply(self.replies[stamp])
        yield from self.when(stamp)
        yield from self.waits(stamp)
        yield from self.transaction(stamp)
        yield from self.ids(stamp, binds)

    def when(self, stamp):
        captured, (event, pause), after = self.calls[stamp], self.started[stamp], self.after[stamp]
        yield "began", f"{captured.began} us, ended {captured.ended} us"
        seen = f"{amount(captured.seen, 'commit')}, the last is call {self.commits[captured.seen - 1]}" if captured.seen else "no commit"
        yield "saw", seen
        if captured.number is not None:
            yield "commit", str(captured.number)
        behind = "before any answer" if after is None else f"right after the answer to call {after}"
        yield "started", f"event {event}, after a pause of {pause} us, {behind}"
        yield "answered", f"event {self.answered[stamp]}"

    def waits(self, stamp):
        captured, stamps = self.calls[stamp], required(self.facts, self.mode, stamp)
        yield "follows", f"call {self.sessions[captured.session][captured.place - 1].stamp}" if captured.place else "nothing"
        told = f"{amount(len(stamps), 'call')}, the last is call {stamps[-1]}" if stamps else "nothing more"
        yield "waits", f"{self.mode}: {told}"

    def ends(self, call):
        word = call.reply.outcome[0]
        return word in ("committed", "connected", "disconnected") or (word == "rolledback" and isinstance(parse(call.call[1]), Rollback))

    def transaction(self, stamp):
        calls, first = self.sessions[self.calls[stamp].session], self.calls[stamp].place
        last = first
        while first > 0 and not self.ends(calls[first - 1]):
            first -= 1
        while last + 1 < len(calls) and not self.ends(calls[last]):
            last += 1
        steps = [call.stamp for call in calls[first:last + 1]]
        ended = "" if self.ends(calls[last]) else ", not ended"
        yield "transaction", f"calls {steps[0]} to {steps[-1]}, {amount(len(steps), 'call')}{ended}"
        yield from (("step", f"{other} {self.classes.get(other, 'same')} {self.text(other)}") for other in steps)

    def ids(self, stamp, binds):
        reply, (before, behind) = self.calls[stamp].reply, self.learnt[stamp]
        told = [value for value in binds if is_id(value)] + given_ids(reply)
        if reply.outcome[0] == "rows":
            told += [value for row in reply.outcome[1] for value in row if is_id(value)]
        if reply.outcome[0] == "committed":
            told += [value for image in reply.outcome[1] for value in (("row", image.row), *(image.values or ())) if is_id(value)]
        for identity in dict.fromkeys(told):
            unsent = identity in binds and not self.map.knows(identity, before)
            yield "id", self.value(identity) + self.stands(identity, behind) + (", sent as an id that no server knows" if unsent else "")

    def stands(self, identity, learnt):
        if not self.map.knows(identity, learnt):
            return " has nothing that stands for it"
        source = "the start" if identity not in self.taught else f"call {self.taught[identity]}"
        return f" stands as {self.value(self.map.images[identity])}, from {source}"


def show_one(captured, replayed, stamp):
    """The lines of one call."""
    return [key.ljust(KEY_WIDTH) + told for key, told in Told(captured, replayed).one(stamp)]


def show_all(captured, replayed):
    """A line for each call that differs."""
    told = Told(captured, replayed)
    return [
        f"{stamp} {told.calls[stamp].session}.{told.calls[stamp].place} {kind} {told.causes.get(stamp, '-')} {told.text(stamp)}"
        for stamp, kind in sorted(told.classes.items())
    ]
