#!/usr/bin/env python3
"""Makes the page of a replay from the files of a capture and of a run, as `replay page CAPTURE OUT` does.

tests/page/make_page.py CAPTURE OUT [PAGE]   (PAGE: where the page goes, else OUT/page.html)
tests/page/make_page.py --constant           (prints the front and the end as the module of the program that holds them)

Enters: two folders. Leaves: the page: a front, the data as one JSON value without a byte `<`, and an end. What the files say is not tested.
"""
import base64
import hashlib
import json
import re
import sys
from pathlib import Path

HERE = Path(__file__).resolve().parent
PIECES = HERE.parent.parent / "page"
sys.path.insert(0, str(HERE.parent))

from outside.files import session_name
from outside.values import write_text

OF_A_RUN = ("journal.txt", "report.txt", "causes.csv", "fence.txt")
RAW, RAW_END = 'r##"', '"##'


def hash_of(text):
    return "sha256-" + base64.b64encode(hashlib.sha256(text.encode()).digest()).decode()


def front_and_end():
    """What stands before and behind the data."""
    text, pieces = (PIECES / "viewer.html").read_text(), {name: (PIECES / name).read_text() for name in ("viewer.css", "viewer.js")}
    for name, piece in pieces.items():
        text = text.replace("{%s hash}" % name, hash_of(piece)).replace("{%s}" % name, piece)
    front, end = text.split("{data}")
    return front, end


def data_text(data):
    """The compact JSON text of the data, keys ascending."""
    text = json.dumps(data, ensure_ascii=False, separators=(",", ":"), sort_keys=True)
    if "<" in text:
        raise ValueError("a file has the byte `<`, which stands in no file of the formats")
    return text


def names_of(captured):
    """The names of a capture's files: the start, and a session file for each session that it has, where they are there."""
    sessions = int(re.search(rb"^sessions (\d+)$", captured["start.cap"], re.M)[1])
    return [name for name in ("start.cap", *map(session_name, range(sessions))) if name in captured]


def data_of(capture, captured, out, replayed):
    """The page's value: two names, spelled as texts of the formats, and the texts of files by name; files that the page does not have are left out."""
    return {
        "capture": write_text(capture.encode()).decode(),
        "captured": {name: captured[name].decode() for name in names_of(captured)},
        "out": write_text(out.encode()).decode(), "replayed": {name: data.decode() for name, data in replayed.items() if name in OF_A_RUN},
    }


def page_of(data):
    front, end = front_and_end()
    return (front + data_text(data) + end).encode()


def files_in(folder):
    return {file.name: file.read_bytes() for file in Path(folder).iterdir() if file.is_file()}


def constant():
    """The text of a module that holds the front and the end."""
    lines = ["//! What stands before the data of a page and behind them: the viewer. Written from `page/`; `.ci/checks` compares."]
    for told, name, text in zip(("Up to the data.", "Behind them."), ("FRONT", "END"), front_and_end()):
        assert text.isascii() and RAW_END not in text, f"{name} fits no raw string"
        lines += ["", f"/// {told}", f"pub(crate) const {name}: &str = {RAW}{text}{RAW_END};"]
    return "\n".join(lines) + "\n"


def main(words):
    if words == ["--constant"]:
        print(constant(), end="")
    elif len(words) in (2, 3):
        page = page_of(data_of(words[0], files_in(words[0]), words[1], files_in(words[1])))
        Path(words[2] if len(words) == 3 else Path(words[1]) / "page.html").write_bytes(page)
    else:
        sys.exit(__doc__)


if __name__ == "__main__":
    main(sys.argv[1:])
