#!/usr/bin/env python3
"""Opens pages of replays in a headless Chromium, and tells what was read back.

The end is 0 where each page shows what the files say, and also where there is no browser: that is told, and the pages are left out. What a
page has to show is worked out by `tests/outside` or stands here.
"""
import argparse
import json
import random
import re
import sys
import tempfile
import time
from pathlib import Path

sys.path.insert(0, str(Path(__file__).resolve().parent))

import browser
import replays
from browser import Browser
from make_page import constant, data_of, data_text, front_and_end, page_of
from outside.files import CLASSES, MODES, read_report, read_session
from outside.legality import required
from outside.statements import Rollback, parse
from outside.values import write_value

MANY, SESSIONS = 100_000, 64
# How long something of a page may take that comes by itself.
SECONDS = 30
UNSEEN = re.compile(
    "[\0-\x09\x0b-\x1f\x7f-\xa0\xad\u034f\u061c\u115f\u1160\u1680\u17b4\u17b5\u180b-\u180f\u2000-\u200f\u2028-\u202e\u205f-\u206f\u2800"
    "\u3000\u3164\ufe00-\ufe0f\ufeff\uffa0\ufff0-\uffff\U000e0000-\U0010ffff\ue000-\uf8ff\ufdd0-\ufdef]")
ROWS = """return Array.from(document.querySelectorAll("#list .row"), (row) => ({
    stamp: Number(row.dataset.stamp), words: row.querySelector(".badge").textContent, cause: row.querySelector(".cause")?.textContent ?? "",
    text: row.querySelector(".text").textContent, replies: Array.from(row.querySelectorAll(".reply bdi"), (reply) => reply.textContent),
    marks: Array.from(row.querySelectorAll(".reply bdi"), (reply) => Array.from(reply.querySelectorAll("mark"), (mark) => mark.textContent)),
}))"""
FILTERS = """return Array.from(document.querySelectorAll(".filters button"), (button) =>
    [button.dataset.word, Number(button.querySelector("b").textContent.replaceAll(",", ""))])"""
# How many there are at least that are reached, by their role.
REACHED = {"button": 13, "link": 10, "searchbox": 1, "application": 2, "list": 1, "heading": 8, "region": 3}
PART = """const part = document.querySelector(`[data-part="${arguments[0]}"] > div`); return part === null ? null : part.innerText"""
PIXEL = """const plot = plots[arguments[0]], stamp = arguments[1], [begin, end] = plot.extent(stamp);
const data = plot.context.getImageData(plot.left + Math.floor((begin + end) / 2), Math.round(plot.middle(stamp)), 1, 1).data;
return "#" + Array.from(data.slice(0, 3), (part) => part.toString(16).padStart(2, "0")).join("")"""


class Wrong(Exception):
    """What a page shows otherwise."""


def same(told, found, wanted):
    if found != wanted:
        raise Wrong(f"{told}: found {found!r}, wanted {wanted!r}")


class Pages:
    """Pages in a folder, opened in one browser."""

    def __init__(self, window, folder, options):
        self.window, self.folder, self.options, self.pictures = window, Path(folder), options, options.pictures

    def open(self, files, fragment=""):
        path = self.folder / "page.html"
        path.write_bytes(page_of(data_of(*files)))
        self.window.open(path, fragment)
        self.is_well()
        return path.stat().st_size

    def is_well(self):
        same("errors of the browser", self.window.errors(), [])
        same("what the page fetched", self.window.run("return performance.getEntriesByType('resource').map((entry) => entry.name)"), [])

    def wait_for(self, script):
        """Waits until a script gives what is true."""
        until = time.monotonic() + SECONDS
        while not self.window.run(script):
            if time.monotonic() > until:
                raise Wrong(f"it did not come: {script}")
            time.sleep(0.05)

    def rows(self):
        return self.window.run(ROWS)

    def part(self, name):
        return self.window.run(PART, name)

    def text(self, place):
        return self.window.run("return document.querySelector(arguments[0]).innerText", place)

    def picture(self, name, whole=False):
        if self.pictures:
            self.window.picture(Path(self.pictures) / f"{name}.png", whole)


def number(text):
    return int(text.replace(",", ""))


def shows_report(pages, files):
    """Whether head, filters and list are those of the report and the causes."""
    report = read_report(files.replayed["report.txt"])
    counts = [[word, sum(line[3] == word for line in report.lines)] for word in CLASSES]
    causes = files.replayed.get("causes.csv", b"").decode().split("\n")[1:-1]
    counts += [[word, sum(line.endswith(f",{word}") for line in causes)] for word in ("upgrade", "timing")]
    same("counts", pages.window.run(FILTERS), [count for count in counts if count[1]])
    differing = len(report.lines)
    counted = f"{differing:,} of {report.calls:,} call{'' if report.calls == 1 else 's'} differ{'s' if differing == 1 else ''}"
    same("summary", pages.text("#summary").split(", ")[0], counted if differing else "No call differs.")
    same("calls of the list", pages.window.run("return list.stamps"), [line[0] for line in report.lines])
    words = dict(pages.window.run("return CLASSES.map((words) => words.slice(0, 2))"))
    for row, line in zip(pages.rows(), report.lines):
        same(f"row of call {line[0]}", (row["stamp"], row["words"]), (line[0], words[line[3]]))
    return report


def examples(pages):
    """The pages of the examples."""
    for capture, out in replays.EXAMPLES:
        shown = replays.example(capture, out)
        pages.open(shown)
        shows_report(pages, shown)
        pages.picture(out.replace("/", "-"), whole=True)
    return f"{len(replays.EXAMPLES)} pages"


def one_call(pages):
    """What a call's page says, worked out by hand."""
    pages.open(replays.example("examples/upgrade", "examples/upgrade/level-2"), "#1")
    same("rows", pages.rows(), [
        {"stamp": 1, "words": "other rows", "cause": "the server changed", "text": "SELECT bal / 2 FROM acct WHERE id = 2",
         "replies": ["1 row: (-3)", "1 row: (-4)"], "marks": [["-3"], ["-4"]]},
        {"stamp": 3, "words": "other commit", "cause": "it met something else", "text": "COMMIT",
         "replies": ["committed: \u2026 acct row 2 = (2, -3)", "committed: \u2026 acct row 2 = (2, -4)"], "marks": [["-3"], ["-4"]]}])
    same("the call", pages.text("#call h2"), "Call 1")
    same("its replies", pages.part("Replies").split(), "captured 1 row bal / 2 -3 replayed 1 row bal / 2 -4".split())
    same("its transaction", [line.split("\n")[0] for line in re.split(r"\n(?=\d)", pages.part("Transaction"))][:1], ["1"])
    pages.open(replays.example("examples/sessions", "examples/sessions/replayed"), "#7")
    same("the text", pages.part("Text"), "COMMIT")
    same("what it saw", pages.part("What it saw").split("\n"), [
         "captured", "1 commit before it, the last is call 5; it is commit 2 itself", "replayed", "the same commits before its answer"])
    same("when", pages.part("When").split("\n"), ["captured", "began at 7.5 ms, took 800 \u00b5s \u2013 session 0, its call 4", "replayed",
         "started as event 14, answered as event 15, after a pause of 700 \u00b5s", "started", "right after the answer to call 6"])
    same("waits", pages.part("Waits for").split("\n"), ["its session", "call 6", "order", "calls 0, 1, 2, 3, 4, 5, 6"])
    same("ids", re.sub(r"\s+", " ", pages.part("Ids")), "captured replayed known from row 1 row 1 the start row 3 row 3 call 2 s 10 s 10 call 2")
    links = pages.window.run("return Array.from(document.querySelectorAll('[data-part=\"Transaction\"] a'), (link) => link.getAttribute('href'))")
    same("transaction", links, ["#2", "#4", "#6", "#7"])
    alone = "return [withoutPartner(['a', 'b', 'a', null], ['a', 'c']), withoutPartner(['a'], ['a', 'a'])]"
    same("rows without a partner", pages.window.run(alone), [[1, 2, 3], []])
    counts = "return ['count 1 [] -', 'count 18446744073709551615 [] -'].map((reply) => outcomeWords({ reply: readReply(reply), other: {} })[0])"
    same("counts", pages.window.run(counts), ["1 row written", "18,446,744,073,709,551,615 rows written"])
    pairs = "return newPairs({ draws: ['d0.1', 'd1.5'], made: 'r1' }, { draws: ['d1.1', 'd1.7', 'd0.2'], made: 'r4' })"
    same("pairs of one sequence", pages.window.run(pairs), [["d1.5", "d1.7"], ["r1", "r4"]])
    pages.open(replays.example("examples/sessions", "examples/sessions/replayed"), "#4")
    refusal = "refused: another session holds the row or key (20)"
    same("a refusal", re.sub(r"\s+", " ", pages.part("Replies")), f"captured {refusal} replayed {refusal}")
    return "3 calls"


def ways(pages):
    """Filters, the search, links and keys."""
    window, files = pages.window, replays.crowd(2000, 16)
    pages.open(files)
    report = shows_report(pages, files)
    stamps = [line[0] for line in report.lines]
    of = lambda *kinds: [line[0] for line in report.lines if line[3] in kinds]
    press = "document.querySelector(`.filters [data-word=\"${arguments[0]}\"]`).click()"
    window.run(press, "new-error")
    same("one class", window.run("return list.stamps"), of("new-error"))
    window.run(press, "images")
    same("two classes", window.run("return list.stamps"), of("new-error", "images"))
    same("how many", pages.text("#shown"), f"{len(of('new-error', 'images')):,} of {len(stamps):,}")
    window.run(press, "new-error"), window.run(press, "images")
    window.run("byId('search').focus()")
    window.press(*"update")
    pages.wait_for("return chosen.words === 'update'")
    same("search", window.run("return list.stamps"), of("new-error"))
    window.run("const box = byId('search'); box.value = ''; box.dispatchEvent(new Event('input')); box.blur()")
    pages.wait_for("return chosen.words === ''")
    window.run("location.hash = String(arguments[0])", stamps[5])
    window.frames()
    same("a link", pages.text("#call h2"), f"Call {stamps[5]:,}")
    window.press("n")
    same("the next one", (pages.text("#call h2"), window.run("return location.hash")), (f"Call {stamps[6]:,}", f"#{stamps[6]}"))
    window.press("p", "p")
    same("the one before", pages.text("#call h2"), f"Call {stamps[4]:,}")
    window.run("byId('list').focus()")
    window.press("down", "down", "up")
    same("down the list", window.run("return [selected, Number(document.activeElement.closest('.row').dataset.stamp)]"), [stamps[5]] * 2)
    session = window.run("return replay.calls.session[selected]")
    window.run("plots[1].canvas.focus()")
    window.press("right")
    place = window.run("return replay.calls.place[arguments[0]]", stamps[5])
    same("along a session", window.run("return [replay.calls.session[selected], replay.calls.place[selected]]"), [session, place + 1])
    window.press("down")
    same("across sessions", window.run("return replay.calls.session[selected]"), (session + 1) if session < 15 else session)
    size = "return plots[1].view[1] - plots[1].view[0]"
    before = window.run(size)
    window.press("+")
    same("zoomed", window.run(size) < before, True)
    window.press("0")
    same("all again", window.run(size), 4000)
    sessions = [read_session(data, int(name[8:11]), 1) for name, data in sorted(files.captured.items()) if name != "start.cap"]
    calls = sorted((call for session in sessions for call in session), key=lambda call: call.stamp)
    for stamp in random.sample(range(len(calls)), 12):
        window.run("moveTo(arguments[0])", stamp)
        same(f"what call {stamp} saw", pages.part("What it saw").split("\n")[-1], seen_in(calls, files, stamp))
    pages.is_well()
    return "filters, search, links, keys"


def names(pages):
    """What can be reached has a name for those who do not see it, and each step of the keyboard's way is seen."""
    window = pages.window
    pages.open(replays.shop())
    window.tell("Accessibility.enable")
    nodes = window.tell("Accessibility.getFullAXTree")["nodes"]
    roles = {role: [node for node in nodes if node.get("role", {}).get("value") == role and not node.get("ignored")] for role in REACHED}
    for role, least in REACHED.items():
        same(f"whether there are {least} of {role}", len(roles[role]) >= least, True)
        same(f"{role} without a name", [node["nodeId"] for node in roles[role] if not node.get("name", {}).get("value")], [])
    window.run("document.activeElement.blur()")
    seen = []
    for _ in range(30):
        window.press("tab")
        seen.append(window.run("const e = document.activeElement; return [e.tagName, getComputedStyle(e).outlineStyle]"))
    same("steps without an outline", [step for step in seen if step[1] == "none"], [])
    same("what steps come to", {step[0] for step in seen} >= {"BUTTON", "CANVAS", "INPUT", "DIV", "A"}, True)
    return f"{sum(map(len, roles.values()))} names"


def drawn(pages):
    """The picture's colours, a click into it, the wheel, and another size."""
    window, files = pages.window, replays.example("examples/upgrade", "examples/upgrade/level-2")
    pages.open(files)
    window.run("selected = -1; for (const plot of plots) plot.draw()")
    colours = window.run("return palette.bars")
    for plot in (0, 1):
        for stamp, rank in enumerate((1, 5, 1, 4)):
            same(f"the colour of call {stamp} in picture {plot}", window.run(PIXEL, plot, stamp), colours[rank])
    files = replays.crowd(2000, 16)
    pages.open(files)
    window.run("byId('picture').scrollIntoView()")
    place = """const plot = plots[arguments[0]], box = plot.canvas.getBoundingClientRect(), [begin, end] = plot.extent(arguments[1]);
        return [box.left + (plot.left + (begin + end) / 2) / plot.dot, box.top + plot.middle(arguments[1]) / plot.dot]"""
    window.wheel(*window.run(place, 0, 1000), -2000)
    window.run("plots[0].look(replay.calls.began[1000] - 200, replay.calls.began[1000] + 200)")
    window.frames()
    window.click(*window.run(place, 0, 1000))
    same("a click", window.run("return selected"), 1000)
    same("the address", window.run("return location.hash"), "#1000")
    before = window.run("return plots[1].view")
    window.wheel(*window.run(place, 1, 1000), -240)
    after = window.run("return plots[1].view")
    same("the wheel", before[0] <= after[0] and after[1] <= before[1] and after != before, True)
    same("the call is still in view", window.run("return plots[1].holds(1000)"), True)
    pages.picture("crowd-of-2000", whole=True)
    return "colours, click, wheel"


def random_runs(pages):
    """What calls wait for, which ids stand for which, and which replies are the same, of random replays."""
    first = random.SystemRandom().randrange(10**6)
    for seed in range(first, first + pages.options.runs):
        try:
            random_run(pages, seed)
        except Wrong as wrong:
            raise Wrong(f"seed {seed}: {wrong}") from None
    return f"seeds {first} to {first + pages.options.runs - 1}"


def random_run(pages, seed):
    files, replay = replays.random_replay(seed)
    pages.open(files)
    shows_report(pages, files)
    window, calls = pages.window, range(len(replay.job.calls))
    for mode in MODES:
        found = window.run("replay.journal.mode = arguments[0]; return Array.from({ length: replay.count }, (_, stamp) => required(stamp))", mode)
        same(f"what calls wait for in {mode}", found, [required(replay.job.facts, mode, stamp) for stamp in calls])
    window.run("replay.journal.mode = arguments[0]", replay.job.mode)
    learnt = [[write_value(one).decode(), write_value(other).decode()] for one, other in replay.map.learnt]
    same("ids", window.run("return Array.from(learntPairs()).filter(([, known]) => known.stamp >= 0).map(([id, known]) => [id, known.image])"), learnt)
    alone = window.run("""return Array.from({ length: replay.count }, (_, stamp) => {
        const kind = replay.report.classOf[stamp];
        replay.report.classOf[stamp] = 1;
        const { captured, replayed } = comparison(stamp);
        replay.report.classOf[stamp] = kind;
        return [captured.alone.length, replayed.alone.length];
    })""")
    for stamp in calls:
        kind = replay.classes.get(stamp)
        if kind in (None, "row-contents", "images", "rows-fetched"):
            same(f"whether rows of call {stamp} ({kind}) have no partner", any(alone[stamp]), kind is not None)
    for stamp in random.sample(calls, min(5, len(calls))):
        window.run("moveTo(arguments[0])", stamp)
        same("the call", pages.text("#call h2"), f"Call {stamp}")
        same(f"what call {stamp} saw", pages.part("What it saw").split("\n")[-1], seen_in(replay.job.calls, files, stamp))
        same(f"the transaction of call {stamp}", window.run("return Array.from(transaction(arguments[0]))", stamp), transaction_of(replay.job, stamp))
    pages.is_well()


def seen_in(calls, files, stamp):
    """What is told of the commits that were answered before a call."""
    answered = [int(line.split(b" ")[1]) for line in files.replayed["journal.txt"].split(b"\n") if line.startswith(b"a ")]
    before, commits = set(answered[:answered.index(stamp)]), [call.stamp for call in calls if call.number is not None]
    saw = commits[:calls[stamp].seen]
    missing, early = len([one for one in saw if one not in before]), len([one for one in commits if one in before and one not in saw])
    if missing + early == 0:
        return "the same commits before its answer"
    count, told = len(saw) - missing + early, [f"{missing} of those it saw not yet"] * bool(missing) + [f"{early} that it had not seen"] * bool(early)
    return f"{count} commit{'' if count == 1 else 's'} before its answer: {', '.join(told)}"


def transaction_of(job, stamp):
    """The calls of a call's transaction, as it was captured."""
    def ends(other):
        outcome, call = job.calls[other].reply.outcome[0], job.calls[other].call
        return outcome in ("committed", "connected", "disconnected") or (outcome == "rolledback" and isinstance(parse(call[1]), Rollback))
    stamps = job.of_session[job.calls[stamp].session]
    place = stamps.index(stamp)
    first = max((at + 1 for at in range(place) if ends(stamps[at])), default=0)
    last = next((at for at in range(place, len(stamps)) if ends(stamps[at])), len(stamps) - 1)
    return stamps[first:last + 1]


def hostile(pages):
    """Texts that would harm a page are shown as texts."""
    files = replays.hostile()
    pages.open(files)
    window, report = pages.window, shows_report(pages, files)
    elements = "return ['script', 'img', 'iframe, object, embed', 'style, link'].map((name) => document.querySelectorAll(name).length)"
    same("elements", window.run(elements), [2, 0, 0, 1])
    same("the name", pages.text("h1"), "Replay of </script><script>alert(2)</script>")
    shown = window.run("return Array.from({ length: replay.count }, (_, stamp) => make('p', {}, spelled(replay.text(stamp))).textContent)")
    same("a text that ends the script", shown[2], "</script><script>alert(1)</script>")
    escapes = {"\n": "\\n", "\r": "\\r", "\t": "\\t"}
    for place, text in enumerate(replays.HOSTILE):
        spelled = re.sub(r"[^\n]|\n", lambda found: escapes.get(found[0]) or ("\\u{%X}" % ord(found[0]) if UNSEEN.match(found[0]) else found[0]), text)
        same(f"text {place}", shown[2 + 5 * place], spelled)
    for stamp in range(report.calls):
        window.run("moveTo(arguments[0])", stamp)
    window.run("window.scrollTo(0, 0); list.print()")
    found = UNSEEN.search(window.run("return document.body.innerText").replace("\u202f", "").replace("\t", ""))
    same("what is not seen", found and hex(ord(found[0])), None)
    same("dialogs and names", window.run("return [document.title.length > 0, 'isProbed' in window]"), [True, False])
    pages.is_well()
    pages.open(files, "#13")
    pages.picture("hostile", whole=True)
    return f"{len(replays.HOSTILE)} texts"


def narrow_and_dark(pages):
    """A narrow window has nothing wider than itself; colours follow the scheme; paper has all rows."""
    window, files = pages.window, replays.example("examples/sessions", "examples/sessions/replayed")
    for name, width, height, dark, ratio in (("narrow", 390, 844, False, 2), ("dark", 1280, 900, True, 1)):
        window.look(width, height, dark, ratio)
        for each, told in ((files, name), (replays.crowd(2000, 16), f"{name}-crowd"), (replays.hostile(), f"{name}-hostile")):
            pages.open(each, "#3")
            same(f"width of {told}", window.run("return document.documentElement.scrollWidth <= innerWidth"), True)
            pages.picture(told, whole=True)
        background = window.run("return getComputedStyle(document.body).backgroundColor")
        same("the background", background, "rgb(20, 23, 27)" if dark else "rgb(255, 255, 255)")
    window.look(*window.size, dark=True)
    pages.open(replays.crowd(2000, 16))
    same("paper", window.paper()[:5], b"%PDF-")
    window.run("dispatchEvent(new Event('beforeprint'))")
    same("the text on paper", window.run("return palette.text"), "#1c2127")
    same("rows on paper", len(pages.rows()), len(window.run("return list.stamps")))
    window.run("dispatchEvent(new Event('afterprint'))")
    same("rows behind it", len(pages.rows()) < 40, True)
    same("the text behind it", window.run("return palette.text"), "#e3e7ec")
    window.look(*window.size)
    return "390 wide, dark, paper"


def unfit(pages):
    """Files that do not go together are told so."""
    good = replays.example("examples/first", "examples/first/replayed")
    other = replays.example("examples/sessions", "examples/sessions/replayed")
    cases = (
        good._replace(replayed=good.replayed | {"journal.txt": other.replayed["journal.txt"]}), good._replace(captured=other.captured),
        good._replace(replayed=good.replayed | {"report.txt": other.replayed["report.txt"]}),
        good._replace(replayed={"report.txt": good.replayed["report.txt"]}),
        good._replace(captured={"start.cap": good.captured["start.cap"]}),
    )
    for case in cases:
        pages.open(case)
        same("what is told", pages.text("#summary").startswith("These files do not go together: "), True)
        same("whether more is shown", pages.window.run("return document.querySelector('main').hidden"), True)
    few = replays.example("examples/first", "examples/first/read-only")
    pages.open(few._replace(replayed={name: data for name, data in few.replayed.items() if name != "causes.csv"}))
    same("without causes", pages.text("#causes"), "not known: there is no causes.csv")
    return f"{len(cases)} misfits"


def edges(pages):
    """A capture without a call, and replies with many rows of long texts."""
    pages.open(replays.bare())
    same("no call", pages.text("#summary"), "No call differs.")
    files = replays.long_replies()
    pages.open(files, "#3")
    same("a row", pages.rows()[0]["replies"][1], "1,000 rows: \u2026 (7, 'other') \u2026")
    table = pages.window.run("""return Array.from(document.querySelectorAll("#call tbody"), (body) =>
        [body.rows.length, body.rows[0].cells[0].textContent, body.rows[1].cells[0].textContent])""")
    same("tables", table, [[100, "500", "0"], [100, "7", "0"]])
    return "no call, long replies"


def shop(pages):
    """A page as it may come, for the picture of the README."""
    files = replays.shop()
    pages.window.look(1280, 1180)
    pages.open(files)
    shows_report(pages, files)
    pages.picture("page")
    pages.window.look(*pages.window.size)
    return "70 calls differ"


def many(pages):
    """100,000 calls of 64 sessions: how soon they are drawn, and that the list has few rows at a time."""
    files, window = replays.crowd(MANY, SESSIONS), pages.window
    size = pages.open(files)
    mark = "return performance.getEntriesByName('drawn')[0]?.startTime"
    times = []
    for _ in range(3):
        window.open(pages.folder / "page.html")
        times.append(window.run(mark))
    report = shows_report(pages, files)
    same("rows that are there", len(pages.rows()) < 40, True)
    window.run("byId('list').scrollTop = byId('list').scrollHeight")
    window.frames()
    same("the last row", pages.rows()[-1]["stamp"], report.lines[-1][0])
    redrawn = window.run("""const plot = plots[1], times = [];
        for (let turn = 0; turn < 8; turn++) {
            const from = performance.now();
            plot.view = [turn * 1000, 200000 - turn * 9000];
            plot.draw();
            times.push(performance.now() - from);
        }
        return Math.max(...times)""")
    searched = window.run("const from = performance.now(); chosen.words = 'update'; showChosen(); return performance.now() - from")
    same("the search", len(window.run("return list.stamps")), sum(line[3] == "new-error" for line in report.lines))
    window.open(pages.folder / "page.html", "#8112")
    same("the call of the address", (pages.text("#call h2"), window.run("return list.box.querySelector('[aria-current]')?.dataset.stamp ?? ''")),
         ("Call 8,112", "8112" if any(line[0] == 8112 for line in report.lines) else ""))
    pages.picture("crowd-of-100000", whole=True)
    pages.is_well()
    told = f"{size / MANY:.0f} bytes a call, drawn in {min(times):.0f} to {max(times):.0f} ms, drawn again in {redrawn:.0f} ms, searched in {searched:.0f} ms"
    if pages.options.within is not None and min(times) > pages.options.within:
        raise Wrong(f"{told}, wanted within {pages.options.within} ms")
    return told


def pieces(_):
    """The front and the end: what ends a script stands where it has to, and the data have no byte `<`."""
    front, end = front_and_end()
    same("the front's end", front.endswith('<script id="data" type="application/json">'), True)
    same("the end's front", end.startswith("</script>\n<script>"), True)
    same("scripts that end", (front + end).count("</script"), 2)
    same("comments", (front + end).count("<!--"), 0)
    same("whether all is ASCII", (front + end).isascii(), True)
    value = data_of(*replays.hostile())
    text = data_text(value)
    same("bytes `<` in the data", text.count("<"), 0)
    same("what the data read as", json.loads(text), value)
    return f"front and end have {len(front) + len(end):,} bytes, the constant {len(constant()):,}"


PARTS = (pieces, examples, one_call, ways, names, drawn, random_runs, hostile, narrow_and_dark, unfit, edges, shop, many)


def tell(pages, part):
    """Makes one part, and tells what came of it. Whether it went as expected."""
    begun = time.monotonic()
    try:
        told, stands = part(pages), True
    except (Wrong, browser.Wrong, OSError) as wrong:
        told, stands = f"FAILED: {wrong}", False
    print(f"{part.__name__}: {told} ({time.monotonic() - begun:.1f} s)", flush=True)
    return stands


def words():
    parser = argparse.ArgumentParser(prog="tests/page/test_viewer.py", description="Opens pages of replays in a headless Chromium.")
    parser.add_argument("--pictures", help="a folder for pictures of the pages")
    parser.add_argument("--within", type=int, help="in how many milliseconds a page of 100,000 calls has to be drawn, from its opening to the second frame")
    parser.add_argument("--runs", type=int, default=60, help="how many random replays are opened")
    parser.add_argument("parts", nargs="*", help=" ".join(part.__name__ for part in PARTS))
    return parser.parse_args()


def main():
    options = words()
    parts = [part for part in PARTS if not options.parts or part.__name__ in options.parts]
    if browser.found() is None:
        print("there is no Chromium with chromedriver: the pages were not opened")
        return 0 if all([tell(None, part) for part in parts if part is pieces]) else 1
    if options.pictures:
        Path(options.pictures).mkdir(parents=True, exist_ok=True)
    with Browser() as window, tempfile.TemporaryDirectory() as folder:
        pages = Pages(window, folder, options)
        return 0 if all([tell(pages, part) for part in parts]) else 1


if __name__ == "__main__":
    sys.exit(main())
