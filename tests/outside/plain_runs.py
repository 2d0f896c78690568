"""Random runs of `run` and `prepare`.

Enters: a source of chance and a bench (a folder with a program). Leaves: nothing, or a `Difference`.
"""
from outside.captures import Clients, Markers, good_change, random_change, random_remap, random_shape
from outside.files import MODES, Refusal, read_capture, write_capture, write_start
from outside.judge import has_one_order, judged, need, same_files
from outside.legality import facts_of, legal_calls, write_requires
from outside.replay import make_job
from outside.report import ending_of
from outside.spoiling import spoil_capture, spoiled, spoiled_records

PERCENTAGES = (0, 1, 33, 50, 99, 100, 250, 333, 1000)
BAD_WORDS = (
    ("--think", "1001"), ("--think", "01"), ("--lanes", "0"), ("--lanes", "65"), ("--mode", "Order"), ("--mode", ""), ("x",), ("--foo",),
    ("--remap", ""), ("--lanes", "+1"), ("--change",), ("--help",), ("--connect", "-1"), ("--mode", "off", "--mode", "off"), ("--lanes=",),
    ("--target", "0"), ("--target", "65536"), ("--target", "7080", "--change", "change.csv"), ("",), ("--mode=of",),
)
WRONG_COMMANDS = (
    (), ("walk",), ("run",), ("run", "cap"), ("prepare", "cap"), ("prepare", "cap", "out", "--mode", "off"), ("runs", "x"), ("trial", "0"),
    ("trial", "10001"), ("generate", "01", "out"), ("serve", "cap", "s.cap", "65"), ("serve", "cap", "s.cap", "0"), ("accept", "a", "1"),
    ("register", "out", "A"), ("compare", "a"), ("run", "", "out"), ("Run", "cap", "out"), ("serve", "cap", "s.cap", "1", "--port", "0"),
    ("accept", "a", "1", "same"), ("compare", "a", "a" * 31), ("generate", "10"), ("prepare", "a" * 901, "out"), ("--", "run", "cap"),
)
LANES = (1, 1, 1, 1, None, None, 2, 3, 64)


def random_options(chance, files_share=0.4):
    """The options of a run, as `make_job` takes them, and the lanes."""
    options = {}
    if chance.random() < 0.93:
        options["mode"] = chance.choice((*MODES, "off", "scn", "object", "fence"))
    for name in ("think", "connect"):
        if chance.random() < 0.4:
            options[name] = chance.choice(PERCENTAGES)
    for name, missing in (("remap", "none.csv"), ("change", "no/change.csv")):
        if chance.random() < files_share:
            options[name] = name + ".csv" if chance.random() < 0.98 else missing
    return options, chance.choice(LANES)


def words_of(chance, options, lanes=None):
    """The words of a run, with its options anywhere behind the command."""
    pairs = [("--" + name, str(value)) for name, value in options.items()] + ([] if lanes is None else [("--lanes", str(lanes))])
    chance.shuffle(pairs)
    words = ["cap", "out"]
    for name, value in pairs:
        written = [name + "=" + value] if chance.random() < 0.2 else [name, value]
        words = written + words if chance.random() < 0.15 else words + written
    return ["run", *words]


def expect(bench, words, ending, files):
    """Runs the program and compares its status, its line and its files."""
    status, line = bench.run(words)
    same_ending((status, line), ending)
    same_files(bench.found("out"), files)


def same_ending(found, wanted):
    status, line = wanted
    need(found == (status, line + b"\n"), f"found status {found[0]} and `", found[1], f"`, wanted status {status} and `", line, "`")


def check_run(bench, options, lanes, words):
    """One run, and all that it wrote."""
    try:
        job = make_job(bench.read, "cap", **options)
    except Refusal as refusal:
        bench.count(f"status {refusal.status}")
        return expect(bench, words, (refusal.status, refusal.line), {})
    found = bench.run(words)
    need(found[0] in (0, 1), f"found status {found[0]} and `", found[1], "`, wanted a replay")
    replay = judged(job, bench.found("out"), lanes)
    same_ending(found, ending_of(replay))
    bench.count(("one order " if has_one_order(job, lanes) else "many orders ") + job.mode)
    for kind in replay.classes.values():
        bench.count("class " + kind)
    return None


def put_capture(bench, clients, sessions):
    files = {"cap/" + name: data for name, data in write_capture(clients.start, sessions).items()}
    bench.put(files)
    return files


def replayed(chance, bench, shape, options, lanes, change=None):
    """A capture of that shape, replayed in that way."""
    clients = Clients(chance, shape)
    put_capture(bench, clients, clients.record())
    change = random_change if change is None else change
    bench.put({"remap.csv": random_remap(chance, clients.start), "change.csv": change(chance, clients.start)})
    check_run(bench, options, lanes, words_of(chance, options, lanes))


def short(chance, bench):
    sessions = chance.choice((1, 2, 2, 3, 3, 4, 6)) if chance.random() < 0.98 else 0
    options, lanes = random_options(chance)
    replayed(chance, bench, random_shape(chance, chance.choice((0, 3, 8, 12, 16, 20, 30)), sessions), options, lanes)


def long(chance, bench):
    """Captures with few that are refused, and with a theme."""
    options, lanes = random_options(chance, 0.15)
    shape = random_shape(
        chance, chance.choice((30, 40, 60, 100)), chance.choice((2, 3, 4, 5)), calm=True,
        theme=chance.choice(("holds", "holds", "spaces", "draws", "")),
        likes={"by_key": chance.random() < 0.3, "one_moment": chance.random() < 0.15, "ids": chance.random() < 0.3})
    replayed(chance, bench, shape, options, lanes)


def many(chance, bench):
    """Captures of many sessions."""
    options, lanes = random_options(chance, 0.1)
    sessions = chance.choice((16, 32, 63, 64))
    shape = random_shape(chance, sessions * chance.choice((1, 2, 3)), sessions, calm=True, likes={"ids": chance.random() < 0.3})
    replayed(chance, bench, shape, options, chance.choice((lanes, 8, 63, None)))


def changed(chance, bench):
    """Replays on a server that is another one."""
    options = {"mode": chance.choice(("order", "order", "scn", "fence", "off")), "change": "change.csv"}
    shape = random_shape(chance, chance.choice((6, 8, 10)), chance.choice((1, 2)), calm=True, likes={"quotients": True})
    replayed(chance, bench, shape, options, chance.choice((1, None)), good_change)


def crowded(chance, bench):
    """Tables of about a thousand rows."""
    options, lanes = random_options(chance, 0.1)
    shape = random_shape(chance, chance.choice((6, 12)), chance.choice((1, 2)), theme="", likes={"crowded": True})
    replayed(chance, bench, shape, options, lanes)


def marked(chance, bench):
    """Transactions that change up to 999 rows, with up to a thousand savepoints, of which some are gone back to."""
    options, lanes = random_options(chance, 0)
    sessions = chance.choice((1, 2))
    clients = Markers(chance, random_shape(chance, chance.choice((100, 100, 100, 300, 300, 2200)) * sessions, sessions), chance.choice((30, 200, 999)))
    put_capture(bench, clients, clients.record())
    check_run(bench, options, lanes, words_of(chance, options, lanes))


def spoiled_calls(chance, bench):
    """Captures of which some call is otherwise than it was."""
    clients = Clients(chance, random_shape(chance, chance.choice((2, 8, 12, 20)), chance.choice((1, 2, 3))))
    sessions = clients.record()
    spoil_capture(chance, sessions)
    put_capture(bench, clients, sessions)
    prepare_or_run(chance, bench)


def spoiled_files(chance, bench):
    """Captures of which some file is otherwise than it was."""
    clients = Clients(chance, random_shape(chance, chance.choice((2, 5, 9)), chance.choice((1, 2, 3))))
    files = put_capture(bench, clients, clients.record())
    name = "cap/start.cap" if chance.random() < 0.4 else chance.choice(sorted(files))
    if chance.random() < 0.03:
        bench.remove(name)
    else:
        bench.put({name: spoiled(chance, files[name])})
    prepare_or_run(chance, bench)


def prepare_or_run(chance, bench):
    if chance.random() < 0.6:
        check_prepare(bench)
    else:
        options, _ = random_options(chance, 0)
        check_run(bench, options, 1, words_of(chance, options, 1))


def check_prepare(bench):
    try:
        start, sessions = read_capture(bench.read, "cap")
        facts = facts_of(start, legal_calls(start, sessions))
    except Refusal as refusal:
        bench.count(f"status {refusal.status}")
        return expect(bench, ["prepare", "cap", "out"], (refusal.status, refusal.line), {})
    bench.count("prepared")
    return expect(bench, ["prepare", "cap", "out"], (0, b"prepared %d calls" % len(facts)), {"requires.csv": write_requires(facts)})


def prepared(chance, bench):
    clients = Clients(chance, random_shape(chance, chance.choice((0, 8, 16, 30)), chance.choice((1, 2, 3, 5))))
    put_capture(bench, clients, clients.record())
    check_prepare(bench)


def records(chance, bench):
    """Remap and change files, mostly spoiled, beside a capture without a call."""
    clients = Clients(chance, random_shape(chance, 0, 0))
    name = chance.choice(("remap", "change", "change"))
    data = spoiled_records(chance, (random_remap if name == "remap" else random_change)(chance, clients.start))
    bench.put({"cap/start.cap": write_start(clients.start, 0), name + ".csv": data})
    check_run(bench, {name: name + ".csv"}, 1, ["run", "cap", "out", "--" + name, name + ".csv", "--lanes", "1"])


def wrong_words(chance, bench):
    """Words that are no command: nothing is read or written."""
    if chance.random() < 0.4:
        words = list(chance.choice(WRONG_COMMANDS))
    else:
        options, _ = random_options(chance)
        options.pop("mode", None)
        words = words_of(chance, options)
        bad = chance.choice(BAD_WORDS)
        words += bad
    expect(bench, words, (2, b"bad command"), {})

