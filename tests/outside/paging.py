"""Pages of random replays, and what `show` tells of them.

Enters: a source of chance and a bench. Leaves: nothing, or a `Difference`: the page is compared byte by byte, and each line.
"""
import sys
from pathlib import Path

sys.path.insert(0, str(Path(__file__).resolve().parent.parent / "page"))

from make_page import data_of, page_of
from outside.captures import good_change, random_shape
from outside.files import read_report
from outside.judge import need, same_file
from outside.plain_runs import random_options, replayed, same_ending
from outside.showing import show_all, show_one

STAMPS = 6


def files_of(bench, folder):
    return {file.name: file.read_bytes() for file in (bench.folder / folder).iterdir()}


def told(bench, words):
    """What a command that ends with 0 prints."""
    status, printed = bench.run(words)
    need(status == 0, f"{words} ended with {status} and `", printed, "`")
    return printed


def lines_of(lines):
    return "".join(line + "\n" for line in lines).encode()


def shown(chance, bench):
    """A replay, its page, the calls that differ, and some of its calls."""
    bench.clear()
    options, lanes = random_options(chance)
    shape = random_shape(chance, chance.choice((3, 8, 16, 30)), chance.choice((1, 2, 3, 5)), calm=True, likes={"ids": chance.random() < 0.5})
    if chance.random() < 0.6:
        options["change"] = "change.csv"
    replayed(chance, bench, shape, options, lanes, good_change)
    if not (bench.folder / "out/report.txt").is_file():
        return bench.count("no page")
    captured, left = files_of(bench, "cap"), files_of(bench, "out")
    report = read_report(left["report.txt"])
    same_ending(bench.run(["page", "cap", "out"]), (0, b"paged %d calls, %d divergent" % (report.calls, len(report.lines))))
    after = files_of(bench, "out")
    same_file("page.html", after.pop("page.html", None), page_of(data_of("cap", captured, "out", left)))
    need(after == left, "page changed another file")
    same_file("show cap out", told(bench, ["show", "cap", "out"]), lines_of(show_all(captured, left)))
    for stamp in chance.sample(range(report.calls), min(STAMPS, report.calls)):
        same_file(f"show cap out {stamp}", told(bench, ["show", "cap", "out", str(stamp)]), lines_of(show_one(captured, left, stamp)))
    same_ending(bench.run(["show", "cap", "out", str(report.calls)]), (14, b"no such call: stamp %d" % report.calls))
    return bench.count(f"page with{'' if report.lines else 'out'} differences")
