"""Many different long texts: what is kept of texts takes no more memory than README says, in a run and in a service."""
import contextlib
import time
from concurrent.futures import ThreadPoolExecutor

from attack_program import CONNECT, PATIENCE, Client, Process, Service, in_folder, outcome, post, same, sql, within
from conversation_answers import call_text, compact

# So many texts of so many bytes, all of them different or few. What is kept of all of them would take 36 MiB.
CALLS, BYTES, FEW = 800, 1000, 4
# How much more many may take than few, in KiB: the 16 MiB that README tells, and half as much for what lies free between.
MOST_MORE = 24 * 1024
START = "start 1\nlevel 1\nsvc main rw\ntable acct\ncol id int 0 9 notnull\ncol bal int 0 9 null\nnextrow 1\nsessions 1\nend\n"
# How many calls are sent before their answers are read.
TOGETHER = 50
# How often the memory of a run is looked at, in seconds. What it had at most is told until it ends.
LOOK = 0.005


def texts(different):
    """The texts of the calls, in which so many different ones come in turn: each a condition of hundreds of parts."""
    for call in range(CALLS):
        head = f"SELECT bal FROM acct WHERE id = {100_000 + call % different}"
        yield head + "+0" * ((BYTES - len(head)) // 2)


def capture(folder, different):
    folder.mkdir()
    (folder / "start.cap").write_text(START)
    calls = [("connect", "main"), *(("sql", text, ()) for text in texts(different))]
    replies = ["connected [] -"] + ["rows - [] -"] * CALLS
    lines = [f"{stamp} 0 0 0 - {call_text(call)} > {reply}\n" for stamp, (call, reply) in enumerate(zip(calls, replies))]
    (folder / "session-000.cap").write_text("".join(["session 1 0\n", *lines, "end\n"]))


def peak_of_run(program, folder, different):
    """The most memory of a run."""
    capture(folder / f"cap-{different}", different)
    peak, ends = 0, time.monotonic() + PATIENCE
    with Process(program, folder, ["run", f"cap-{different}", f"out-{different}", "--lanes", "1"]) as run:
        while run.is_alive() and time.monotonic() < ends:
            # (of a run that has just ended nothing is told)
            with contextlib.suppress(OSError, StopIteration):
                peak = run.peak()
            time.sleep(LOOK)
        same(f"a run of {different} texts", run.ended(), (0, f"replayed {CALLS + 1} calls, 0 divergent\n"))
    return peak


def peak_of_service(program, folder, different):
    """The most memory of a service."""
    with Service(program, folder, 1, into=f"served-{different}") as service:
        with Client(service.port) as client:
            same("a connect", client.ask(CONNECT), outcome("connected"))
            # (several at once, since each wait for an answer is long on a busy machine)
            calls = [post(sql(text)) for text in texts(different)]
            for place in range(0, CALLS, TOGETHER):
                client.send(b"".join(calls[place : place + TOGETHER]))
                for _ in calls[place : place + TOGETHER]:
                    same("no row", client.answer(), (200, compact(outcome("rows", [])), False))
            peak = service.peak()
        service.finish(CALLS + 2)
    return peak


@in_folder
def kept_texts(program, folder):
    """Each with few texts and with many, all at once."""
    with ThreadPoolExecutor(4) as pool:
        begun = [(peak_of, [pool.submit(peak_of, program, folder, different) for different in (FEW, CALLS)]) for peak_of in (peak_of_run, peak_of_service)]
        grown = []
        for peak_of, both in begun:
            few, many = (peak.result() for peak in both)
            grown.append(many - few)
            within(f"{peak_of.__name__}: KiB that {CALLS} different texts take beside {FEW}", many - few, -MOST_MORE, MOST_MORE)
    return f"{CALLS} different texts take {grown[0]} KiB more than {FEW} do in a run, and {grown[1]} KiB in a service"
