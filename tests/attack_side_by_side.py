"""Lanes of any number side by side: by the clock and by the journal where the desk answers, and by a server that waits for all of them."""
import contextlib
import itertools
import socket
import threading
import time
from concurrent.futures import ThreadPoolExecutor

from attack_program import HOST, PATIENCE, in_folder, ran, same, within
from attack_remote import GOOD, request

SESSIONS = 64
# How long each session's first call is held, in seconds. What is served side by side takes as long, and less than twice that: where a lane
# has two of the sessions it takes twice that at least.
PAUSE = 4
# As many lanes as sessions: how many of both, and the words.
ALONE = [(count, ["--lanes", str(count)]) for count in (2, 3, 4, 5, 6, 7, 8, 33, 64)]
UNSAID = [(count, []) for count in (1, 3, 64)]
# Fewer lanes than sessions: how many sessions, how many lanes, which part of the pause is kept in hundredths, and after how many rounds all is done.
FEWER = ((3, 1, 25, 3), (4, 3, 25, 2), (64, 3, 5, 22), (64, 31, 25, 3))
# How long a server that holds as many calls as there are lanes looks whether another one comes.
LOOK = 0.3
LANES = 3


def capture(folder, sessions):
    """Sessions of one call each, which began so long behind the capture's start."""
    folder.mkdir()
    head = ["start 1", "level 1", "svc main rw", "nextrow 1", f"sessions {sessions}", "end", ""]
    (folder / "start.cap").write_text("\n".join(head))
    at = PAUSE * 1_000_000
    for session in range(sessions):
        call = f"{session} {at} {at} 0 - connect tmain > connected [] -"
        (folder / f"session-{session:03}.cap").write_text(f"session 1 {session}\n{call}\nend\n")


def most_under_way(journal):
    """How many calls were started and not answered, at most."""
    steps = {"s": 1, "a": -1}
    return max(itertools.accumulate(steps.get(line.split(" ")[0], 0) for line in journal.split("\n")))


def timed(program, folder, sessions, words, out):
    """How long a replay took, and how many calls were under way at most."""
    begun = time.monotonic()
    came = ran(program, folder, ["run", f"cap-{sessions}", out, "--mode", "off", *words])
    took = time.monotonic() - begun
    same(f"{sessions} sessions {words}", came, (0, f"replayed {sessions} calls, 0 divergent\n"))
    return took, most_under_way((folder / out / "journal.txt").read_text())


def alone(program, folder, out, sessions, words):
    """A lane for each session: all of them wait at once, and none behind another."""
    told = f"{sessions} sessions {' '.join(words) or 'by lanes that are not said'}"
    took, most = timed(program, folder, sessions, words, out)
    same(f"{told}: calls under way at most", most, sessions)
    within(f"{told}: seconds", took, PAUSE, 2 * PAUSE)


def fewer(program, folder, out, sessions, lanes, part, rounds):
    """Fewer lanes than sessions: as many wait at once as there are lanes, and never more, so that it takes so many rounds."""
    told = f"{sessions} sessions by {lanes} lanes"
    took, most = timed(program, folder, sessions, ["--lanes", str(lanes), "--connect", str(part)], out)
    same(f"{told}: calls under way at most", most, lanes)
    within(f"{told}: seconds", took, PAUSE * part / 100 * rounds, PATIENCE)


class Gathering:
    """A server that answers a call once as many are under way as it waits for, or all have come. It notes how many were at most."""

    def __init__(self, together):
        self.together, self.came, self.under_way, self.most = together, 0, 0, 0
        self.changed, self.ends, self.threads = threading.Condition(), False, []
        self.listener = socket.create_server((HOST, 0), backlog=SESSIONS)
        self.port = self.listener.getsockname()[1]

    def __enter__(self):
        self.threads.append(threading.Thread(target=self.accept))
        self.threads[0].start()
        return self

    def __exit__(self, *_):
        with self.changed:
            self.ends = True
            self.changed.notify_all()
        with contextlib.suppress(OSError):
            self.listener.shutdown(socket.SHUT_RDWR)
        for thread in self.threads:
            thread.join()
        self.listener.close()

    def accept(self):
        with contextlib.suppress(OSError):
            while True:
                stream, _ = self.listener.accept()
                stream.settimeout(PATIENCE)
                thread = threading.Thread(target=self.serve, args=(stream,))
                thread.start()
                self.threads.append(thread)

    def serve(self, stream):
        with stream, contextlib.suppress(OSError):
            while request(stream) is not None:
                if not self.hold():
                    return
                stream.sendall(GOOD)

    def hold(self):
        """Holds a call until it is to be answered; whether it is."""
        with self.changed:
            place = self.came
            self.came += 1
            self.under_way += 1
            self.most = max(self.most, self.under_way)
            self.changed.notify_all()
            wanted = min((place // self.together + 1) * self.together, SESSIONS)
            self.changed.wait_for(lambda: self.ends or wanted <= self.came)
        if place < self.together:
            time.sleep(LOOK)
        with self.changed:
            self.under_way -= 1
            return not self.ends


def gathered(program, folder, out, words, lanes):
    """A replay against a server that answers none of the calls until one of each lane has come."""
    told = f"{SESSIONS} sessions against a server {' '.join(words) or 'by lanes that are not said'}"
    with Gathering(lanes) as server:
        words = ["run", f"cap-{SESSIONS}", out, "--mode", "off", "--connect", "0", "--target", str(server.port), *words]
        came = ran(program, folder, words)
    same(told, came, (0, f"replayed {SESSIONS} calls, 0 divergent\n"))
    same(f"{told}: calls under way at most", (server.most, server.came), (lanes, SESSIONS))


@in_folder
def side_by_side(program, folder):
    """All of these replays at once, since they wait."""
    for sessions in {one[0] for one in (*ALONE, *UNSAID, *FEWER)}:
        capture(folder / f"cap-{sessions}", sessions)
    tasks = [(alone, *one) for one in (*ALONE, *UNSAID)] + [(fewer, *one) for one in FEWER]
    tasks += [(gathered, [], SESSIONS), (gathered, ["--lanes", str(LANES)], LANES)]
    with ThreadPoolExecutor(len(tasks)) as pool:
        begun = [pool.submit(task, program, folder, f"out-{number}", *rest) for number, (task, *rest) in enumerate(tasks)]
        for done in begun:
            done.result()
    return (f"{len(ALONE) + len(UNSAID)} replays of 1 to {SESSIONS} sessions by as many lanes, each as long as one pause; {len(FEWER)} by fewer lanes, "
            f"and never more calls under way; a server that waits for {SESSIONS} calls and for {LANES} gets them")
