"""Random runs of `run --target` against a server elsewhere.

Enters: a source of chance and a bench. Leaves: nothing, or a `Difference` in what was sent, in the line or in the files.
"""
import random

from outside.captures import Clients, random_remap, random_shape
from outside.elsewhere import BAD_REQUEST, NEVER_GIVEN, AsCaptured, ByRules, Changed, Elsewhere, Fault, Faulty, Renamed, request_of
from outside.files import Refusal
from outside.json_texts import call_of
from outside.judge import Difference, has_one_order, judged, need
from outside.plain_runs import put_capture, random_options, same_ending, words_of
from outside.replay import Replay, make_job
from outside.report import ending_of
from outside.values import is_id

WAYS = ("rules", "rules", "captured", "renamed", "altered", "altered", "collided", "collided", "fault", "fault")


def answers_of(chance, job, way):
    seed = chance.getrandbits(64)
    base = ByRules(job.start) if chance.random() < 0.5 else AsCaptured(job)
    if way == "rules":
        return ByRules(job.start)
    if way == "captured":
        return AsCaptured(job)
    if way == "renamed":
        return Renamed(job, chance)
    if way == "altered":
        return Changed(base, job, seed, chance.choice((0.1, 0.3, 0.6, 1)))
    if way == "collided":
        return Changed(base, job, seed, 1, collide=True)
    connection = chance.randrange(len(job.of_session))
    place = chance.randrange(len(sorted(job.of_session.items())[connection][1]))
    return Faulty(base, (connection, place), seed)


class Heard:
    """What the log of a server elsewhere tells, by stamp: places in the log of each request and answer, and both."""

    def __init__(self, job, server):
        need(not (strange := [entry[1] for entry in server.log if entry[0] == "strange"]), "; ".join(strange))
        connections, sessions = len(server.connections), len(job.of_session)
        need(connections == sessions, f"{connections} connections for {sessions} sessions with a call")
        self.came, self.requests, self.answered, self.replies, self.fault, self.order = {}, {}, {}, {}, None, []
        sessions = sorted(job.of_session)
        for at, entry in enumerate(server.log):
            if entry[0] == "ended":
                continue
            stamps = job.of_session[sessions[entry[1]]]
            need(entry[2] < len(stamps), f"session {sessions[entry[1]]}: a call too many was sent")
            stamp = stamps[entry[2]]
            if entry[0] == "came":
                self.came[stamp], self.requests[stamp] = at, entry[3]
                self.order.append(stamp)
            elif isinstance(entry[3], Fault):
                self.fault = (stamp, at)
            else:
                self.answered[stamp], self.replies[stamp] = at, NEVER_GIVEN if entry[3] == BAD_REQUEST else entry[3]
        self.ends = [at for at, entry in enumerate(server.log) if entry[0] == "ended"]


def same_request(stamp, found, wanted):
    need(found in wanted, f"call {stamp} was sent as `", found, "`, wanted `", wanted[0], "`")


def follow_alone(job, heard):
    """The one order: each request, up to the fault where there is one."""
    replay, order = Replay(job, elsewhere=True), []

    def answer(stamp):
        if order and order[-1] is None:
            return
        order.append(stamp)
        need(stamp in heard.requests, f"call {stamp} was not sent")
        same_request(stamp, heard.requests[stamp], [request_of(replay.sent(stamp))])
        if stamp in heard.replies:
            replay.hear(stamp, heard.replies[stamp])
        else:
            order.append(None)

    replay.run_alone(answer)
    wanted = [stamp for stamp in order if stamp is not None]
    need(heard.order == wanted, f"calls were sent in the order {heard.order}, wanted {wanted}")


def follow_many(job, heard, replay):
    """Each request under the maps that there were while it could be sent, and no request before what it waits for was answered."""
    events = [(line[:1], int(line.split(b" ")[1])) for line in replay.events]
    place = {event: at for at, event in enumerate(events)}
    latest = -1
    for kind, stamp in events:
        if kind == b"a":
            latest = max(latest, heard.answered[stamp])
        else:
            need(heard.came[stamp] > latest, f"call {stamp} was sent before an answer came that stands before it in the journal")
    for stamp in range(len(job.calls)):
        maps = [replay.learnt_at[place[b"s", stamp]]]
        for at in range(place[b"s", stamp] + 1, place[b"a", stamp]):
            kind, other = events[at]
            if kind == b"a" and heard.answered[other] > heard.came[stamp]:
                break
            maps.append(replay.learnt_at[at])
        same_request(stamp, heard.requests[stamp], [request_of(replay.sent(stamp, learnt)) for learnt in dict.fromkeys(maps)])


def could_be(captured, sent, job):
    """Whether a sent call is the captured one but for its service by the remap file and its ids."""
    if captured[0] == "connect":
        return sent == ("connect", job.services.get(captured[1], captured[1]))
    if captured[0] != "sql" or sent[0] != "sql":
        return captured == sent
    pairs = zip(captured[2], sent[2])
    return captured[1] == sent[1] and len(captured[2]) == len(sent[2]) and all(
        was == now or (is_id(was) and was[:-1] == now[:-1]) for was, now in pairs)


def judge_fault(job, heard, lanes, found):
    need(not found, "files were written though the link failed: " + ", ".join(sorted(found)))
    for stamp, request in heard.requests.items():
        call = call_of(request.partition(b"\r\n\r\n")[2])
        need(request == request_of(call) and could_be(job.calls[stamp].call, call, job), f"call {stamp} was sent as `", request, "`")
    if has_one_order(job, lanes):
        return follow_alone(job, heard)
    lanes = lanes or max(1, job.sessions)
    lane = job.calls[heard.fault[0]].session % lanes
    late = [stamp for stamp in heard.order if heard.came[stamp] > heard.fault[1] and job.calls[stamp].session % lanes == lane]
    return need(not late, f"calls {late} were sent by a lane of which a call had failed")


def judge_whole(job, heard, lanes, found):
    """The replay, of which each call was sent once and answered."""
    need(len(heard.order) == len(job.calls), f"{len(heard.order)} calls were sent of {len(job.calls)}")
    replay = judged(job, found, lanes, elsewhere=True)
    for stamp, reply in replay.replies.items():
        need(reply == heard.replies[stamp], f"journal.txt: call {stamp} has another reply than was given")
    if has_one_order(job, lanes):
        follow_alone(job, heard)
    else:
        follow_many(job, heard, replay)
    last = max(heard.answered.values(), default=-1)
    need(all(at > last for at in heard.ends), "a connection was closed before the last answer")
    return replay


def random_clients(chance):
    shape = random_shape(
        chance, chance.choice((2, 5, 8, 12, 16, 20, 30)), chance.choice((1, 2, 2, 3, 3, 4, 6, 8)), calm=chance.random() < 0.6,
        theme=chance.choice(("holds", "draws", "draws", "spaces", "")), again=chance.choice((0.3, 0.6, 0.8)),
        likes={"ids": chance.random() < 0.6})
    return Clients(chance, shape)


def with_idle_sessions(chance, sessions):
    """The same calls, with sessions among them that make none."""
    found = []
    for calls in sessions:
        while chance.random() < 0.2:
            found.append([])
        for captured in calls:
            captured.session = len(found)
        found.append(calls)
    return found


def against_another(chance, bench):
    clients = random_clients(chance)
    put_capture(bench, clients, with_idle_sessions(chance, clients.record()))
    bench.put({"remap.csv": random_remap(chance, clients.start)})
    options, lanes = random_options(chance, 0)
    if chance.random() < 0.3:
        options["remap"] = "remap.csv"
    try:
        job = make_job(bench.read, "cap", **options)
    except Refusal as refusal:
        status, line = bench.run(words_of(chance, {**options, "target": 1}, lanes))
        return same_ending((status, line), (refusal.status, refusal.line))
    way = chance.choice(WAYS)
    server = Elsewhere(answers_of(chance, job, way), random.Random(chance.getrandbits(64)), chance.choice((0, 0, 0.1, 0.4)))
    ending = server.serve(bench.open(words_of(chance, {**options, "target": server.port}, lanes)))
    if ending is None:
        raise Difference("the program did not end")
    heard, found = Heard(job, server), bench.found("out")
    bench.count("elsewhere " + way)
    if way == "fault" and heard.fault:
        judge_fault(job, heard, lanes, found)
        return same_ending(ending, (10, b"link fault"))
    return same_ending(ending, ending_of(judge_whole(job, heard, lanes, found)))
