"""The real clock: a run lasts as long as its pauses, and the moments of a served capture are those at which its calls came, in microseconds."""
import time
from concurrent.futures import ThreadPoolExecutor

from attack_program import CONNECT, Client, Service, in_folder, ran, same, sql, within

# How long the one pause of a capture lasts, in seconds. A run of it takes as long, and less than twice that.
GAP = 3
# The moments of a capture are whole microseconds, and rounded down.
ROUNDED = 0.00001
START = "start 1\nlevel 1\nsvc main rw\nnextrow 1\nsessions 1\nend\n"
COMMIT = sql("COMMIT")


def capture(folder, connected, committed):
    """A session that connects and commits so many seconds behind the capture's start."""
    folder.mkdir()
    (folder / "start.cap").write_text(START)
    first, second = (int(seconds * 1_000_000) for seconds in (connected, committed))
    calls = f"0 {first} {first} 0 - connect tmain > connected [] -\n1 {second} {second} 0 - sql tCOMMIT [] > committed - [] -\n"
    (folder / "session-000.cap").write_text(f"session 1 0\n{calls}end\n")


def takes(program, folder, words, least, limit):
    """A run of two calls takes from so many seconds to less than so many."""
    begun = time.monotonic()
    came = ran(program, folder, ["run", *words])
    took = time.monotonic() - begun
    same(f"{words}", came, (0, "replayed 2 calls, 0 divergent\n"))
    within(f"{words}: seconds", took, least, limit)


def moments(folder):
    """When each call of the one session began and ended, in seconds."""
    lines = (folder / "session-000.cap").read_text().split("\n")[1:-2]
    return [tuple(int(moment) / 1_000_000 for moment in line.split(" ")[1:3]) for line in lines]


def asked(client, call, answer):
    """When a call was sent and when it was answered."""
    sent = time.monotonic()
    same("an answer", client.ask(call)["outcome"], answer)
    return sent, time.monotonic()


def served(program, folder):
    """Two calls of a client are recorded as far apart as they were. What was recorded is then replayed as long as it took."""
    begun = time.monotonic()
    with Service(program, folder, 1) as service:
        with Client(service.port) as client:
            first = asked(client, CONNECT, {"connected": True})
            time.sleep(GAP)
            second = asked(client, COMMIT, {"committed": []})
            asked(client, {"disconnect": True}, {"disconnected": True})
        service.finish(3)
    (one_began, one_ended), (two_began, two_ended) = moments(folder / "cap")[:2]
    within("seconds to the first call", one_began, 0, first[1] - begun + ROUNDED)
    within("seconds of the first call", one_ended - one_began, 0, first[1] - first[0] + ROUNDED)
    within("seconds of the second call", two_ended - two_began, 0, second[1] - second[0] + ROUNDED)
    within("seconds from the end of the first to the second", two_began - one_ended, second[0] - first[1] - ROUNDED, second[1] - first[0] + ROUNDED)
    again = time.monotonic()
    same("what was served, again", ran(program, folder, ["run", "cap", "out"]), (0, "replayed 3 calls, 0 divergent\n"))
    within("what was served, again: seconds", time.monotonic() - again, GAP, 2 * GAP)


def against_a_server(program, folder):
    """Calls go out to a server behind their pauses, and so it records them."""
    with Service(program, folder, 1, into="again") as service:
        takes(program, folder, ["thinks", "out-server", "--target", str(service.port)], GAP, 2 * GAP)
        service.finish(3)
    (_, one_ended), (two_began, _) = moments(folder / "again")[:2]
    within("seconds between two calls that a server records", two_began - one_ended, GAP - ROUNDED, 2 * GAP)


@in_folder
def clock(program, folder):
    """All at once, since they wait."""
    capture(folder / "thinks", 0, GAP)
    capture(folder / "connects", GAP, GAP)
    for name in ("served", "server"):
        (folder / name).mkdir()
    capture(folder / "server" / "thinks", 0, GAP)
    runs = [(["connects", "out-1"], GAP, 2 * GAP), (["connects", "out-2", "--connect", "0"], 0, GAP), (["connects", "out-3", "--think", "0"], GAP, 2 * GAP),
            (["thinks", "out-4"], GAP, 2 * GAP), (["thinks", "out-5", "--think", "0"], 0, GAP), (["thinks", "out-6", "--think", "200"], 2 * GAP, 3 * GAP)]
    with ThreadPoolExecutor(len(runs) + 2) as pool:
        begun = [pool.submit(takes, program, folder, *run) for run in runs]
        begun += [pool.submit(served, program, folder / "served"), pool.submit(against_a_server, program, folder / "server")]
        for done in begun:
            done.result()
    return (f"{len(runs)} runs of a pause of {GAP} s take as long as they keep of it; calls that came {GAP} s apart are recorded so, and replayed so, "
            "against a server too")
