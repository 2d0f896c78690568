"""A replay: which calls may start, what is sent, what is answered, and which ids stand for which.

Enters: a job (a legal capture and how it is replayed), and each start and answer in turn. Leaves: the history, and what each call met.
"""
from dataclasses import dataclass, field
from typing import NamedTuple

from outside.changes import BadRecord, changed_start, read_remap
from outside.files import Refusal, joined, read_capture
from outside.legality import facts_of, legal_calls, required
from outside.server import Server, View
from outside.values import is_id, write_reply

# What no server knows: an id that has no image is sent with this added.
UNKNOWN_ID = 2**40


@dataclass
class Job:
    """Sessions is how many the start file tells; `of_session` has the stamps of each session with a call."""

    start: object
    target: object
    calls: list
    facts: list
    sessions: int
    mode: str = "order"
    think: int = 100
    connect: int = 100
    services: dict = field(default_factory=dict)

    def __post_init__(self):
        self.of_session, self.before = {}, {}
        for captured in self.calls:
            stamps = self.of_session.setdefault(captured.session, [])
            self.before[captured.stamp] = stamps[-1] if stamps else None
            stamps.append(captured.stamp)

    def pause(self, stamp):
        """Rounded down, of the gap before the call."""
        captured, before = self.calls[stamp], self.before[stamp]
        if before is None:
            return captured.began * self.connect // 100
        return (captured.began - self.calls[before].ended) * self.think // 100


def with_record(read, name, kind, reader):
    """What a reader makes of a file of records; a `Refusal` where it is missing or bad."""
    data = read(name)
    if data is None:
        raise Refusal(4, b"missing: " + name.encode())
    try:
        return reader(data)
    except BadRecord as bad:
        raise Refusal(7, b"bad %s: row %d" % (kind, bad.number)) from None


def make_job(read, folder, remap=None, change=None, **options):
    """The job of a command, or its `Refusal`. `read` gives the bytes of a named file, or None."""
    start, sessions = read_capture(read, folder)
    services = {} if remap is None else with_record(read, remap, b"remap", read_remap)
    target = start if change is None else with_record(read, change, b"change", lambda data: changed_start(start, data))
    calls = legal_calls(start, sessions)
    return Job(start, target, calls, facts_of(start, calls), len(sessions), services=services, **options)


class NoImage(Exception):
    """An id that nothing stands for."""


class IdMap:
    """Pairs of ids, captured and replayed, in the order of learning; those of the start stand for themselves."""

    def __init__(self, ids):
        self.images = {identity: identity for identity in ids}
        self.taken = set(ids)
        self.learnt = []
        self.places = dict.fromkeys(ids, -1)

    def knows(self, value, learnt):
        """Whether the id has an image among the first so many pairs."""
        return self.places.get(value, learnt) < learnt

    def image(self, value, learnt):
        if not is_id(value):
            return value
        if not self.knows(value, learnt):
            raise NoImage
        return self.images[value]

    def learn(self, captured, replayed):
        """Learns what both replies gave, but for pairs of which one id has a pair already (which only another server can give)."""
        pairs = [pair for pair in zip(captured.draws, replayed.draws) if pair[0][1] == pair[1][1]]
        if captured.made is not None and replayed.made is not None:
            pairs.append((("row", captured.made), ("row", replayed.made)))
        for identity, image in pairs:
            if identity not in self.images and image not in self.taken:
                self.images[identity] = image
                self.taken.add(image)
                self.places[identity] = len(self.learnt)
                self.learnt.append((identity, image))


class Met(NamedTuple):
    """What a call met: how many pairs were learnt, the view, and the call that was sent. It is plain where its session was clean and no
    commit had differed."""

    learnt: int
    view: View
    sent: tuple
    plain: bool


class Replay:
    """One history of a job, event by event; the first open call is the lowest that is not answered."""

    def __init__(self, job, elsewhere=False):
        self.job = job
        self.server = None if elsewhere else Server(job.target)
        self.map = IdMap(job.start.ids())
        self.started, self.answered, self.waits = set(), set(), {}
        self.next_places = dict.fromkeys(job.of_session, 0)
        self.events, self.replies, self.classes, self.met = [], {}, {}, {}
        self.learnt_at = []
        self.commits_differ, self.first_open = False, 0

    def ready(self, stamp):
        """Whether the call may start."""
        before = self.job.before[stamp]
        if stamp in self.started or (before is not None and before not in self.answered):
            return False
        if self.job.mode == "order" or (self.job.mode == "fence" and self.job.facts[stamp].number):
            return self.first_open >= stamp
        if stamp not in self.waits:
            self.waits[stamp] = required(self.job.facts, self.job.mode, stamp)
        waits = self.waits[stamp]
        while waits and waits[-1] in self.answered:
            waits.pop()
        return not waits

    def pick(self, sessions):
        """The call of the first of these sessions that has one that may start, or None."""
        for session in sessions:
            stamps = self.job.of_session.get(session, ())
            place = self.next_places.get(session, 0)
            if place < len(stamps) and self.ready(stamps[place]):
                return stamps[place]
        return None

    def start(self, stamp):
        self.started.add(stamp)
        self.waits.pop(stamp, None)
        self.next_places[self.job.calls[stamp].session] += 1
        self.note(b"s %d %d" % (stamp, self.job.pause(stamp)))

    def note(self, event):
        """Notes an event, and how many pairs were learnt with it."""
        self.events.append(event)
        self.learnt_at.append(len(self.map.learnt))

    def sent(self, stamp, learnt=None):
        """The call that is sent, by the first so many pairs of the map."""
        call = self.job.calls[stamp].call
        learnt = len(self.map.learnt) if learnt is None else learnt
        if call[0] == "connect":
            return ("connect", self.job.services.get(call[1], call[1]))
        if call[0] == "disconnect":
            return call
        return ("sql", call[1], tuple(self.sent_value(value, learnt) for value in call[2]))

    def sent_value(self, value, learnt):
        if is_id(value) and not self.map.knows(value, learnt):
            return (*value[:-1], value[-1] + UNKNOWN_ID)
        return self.map.image(value, learnt)

    def answer(self, stamp):
        """The server here answers the call."""
        session, learnt, sent = self.job.calls[stamp].session, len(self.map.learnt), self.sent(stamp)
        plain = self.server.session(session).is_clean() and not self.commits_differ
        view = self.server.view(session, sent)
        reply = self.server.answer(session, sent)
        self.met[stamp] = Met(learnt, view, sent, plain)
        self.hear(stamp, reply)

    def hear(self, stamp, reply):
        """A call is answered with a reply."""
        captured = self.job.calls[stamp].reply
        self.map.learn(captured, reply)
        kind = class_of(self.map, captured, reply)
        self.replies[stamp] = reply
        if kind is not None:
            self.classes[stamp] = kind
            self.commits_differ |= "committed" in (captured.outcome[0], reply.outcome[0])
        self.answered.add(stamp)
        while self.first_open in self.answered:
            self.first_open += 1
        self.note(b"a %d %s" % (stamp, write_reply(reply)))

    def run_alone(self, answer=None):
        """The one replay that a single lane makes; `answer` makes a call be answered."""
        sessions = sorted(self.job.of_session)
        while (stamp := self.pick(sessions)) is not None:
            self.start(stamp)
            (answer or self.answer)(stamp)
        return self

    def journal(self):
        return joined([b"journal 1 " + self.job.mode.encode(), *self.events, b"end"])


def class_of(id_map, captured, replayed):
    """The class of a call by its two replies, or None where they are the same."""
    was, now = captured.outcome, replayed.outcome
    if "refused" in (was[0], now[0]):
        if was[0] != "refused":
            return "new-error"
        if now[0] != "refused":
            return "gone-error"
        return None if was == now else "mutated-error"
    if was[0] != now[0]:
        return "shape"
    if was[0] == "count":
        return None if was == now else "rows-modified"
    if was[0] == "rows":
        if len(was[1]) != len(now[1]):
            return "rows-fetched"
        return None if same_rows(id_map, was[1], now[1]) else "row-contents"
    if was[0] == "committed":
        return None if same_images(id_map, was[1], now[1]) else "images"
    return None


def same_rows(id_map, was, now):
    learnt = len(id_map.learnt)
    try:
        return sorted(tuple(id_map.image(value, learnt) for value in row) for row in was) == sorted(now)
    except NoImage:
        return False


def same_images(id_map, was, now):
    learnt = len(id_map.learnt)
    try:
        expected = {
            id_map.image(("row", image.row), learnt): (image.table, image_values(id_map, image.values, learnt)) for image in was
        }
    except NoImage:
        return False
    return expected == {("row", image.row): (image.table, image.values) for image in now}


def image_values(id_map, values, learnt):
    return None if values is None else tuple(id_map.image(value, learnt) for value in values)
