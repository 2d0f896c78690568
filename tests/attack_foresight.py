"""What the script `replay` says on the standard error before a command's work and behind it. Line, status and files are the program's."""
import os
import shutil
import socket
import subprocess

import small_server
from attack_program import CONNECT, HERE, HOST, PATIENCE, Client, Service, files_below, free_port, in_folder, outcome, same, script_with, sql
from attack_terminal import Terminal

EXAMPLE = HERE / "examples/first"
FAULT, DONE = (5, "device fault\n"), (0, "replayed 3 calls, 0 divergent\n")
GOES_ON = "replay: the command goes on, since other refusals go before this one, but it can't end well; Ctrl-C ends it now\n"
# A file may have so many bytes that a run reads.
LIMIT = 67108864
# Rows of a text that a file spells thrice as long, and how often all of them are asked for, so that the answers are longer than a file may be.
ROWS, TEXT, ASKED = 1000, " " * 1000, 23
LARGE = "replay: {} has {} bytes: it can't be replayed, since a run takes no file of more than 67108864\n"


def asked(script, folder, words, **how):
    """The status, the line and what the script says on the standard error."""
    how = {"stderr": subprocess.PIPE} | how
    done = subprocess.run([script, *words], cwd=folder, stdin=subprocess.DEVNULL, stdout=subprocess.PIPE, timeout=PATIENCE, **how)
    return (done.returncode, done.stdout.decode()), (done.stderr or b"").decode()


def foretold(script, folder, words):
    """The status, the line and what the script says before the command."""
    came, said = asked(script, folder, words)
    return came, said[: said.find(GOES_ON) + len(GOES_ON)] if GOES_ON in said else ""


def bad_places(folder):
    """Folders that can't be made or written into, each with what is said of it."""
    (folder / "file").write_bytes(b"old\n")
    (folder / "astray").symlink_to("file/nowhere")
    yield "file", "file is no folder"
    yield "file/below/it", "file is no folder"
    yield "astray", "astray is no folder"
    yield "/dev/full/below", "/dev/full is no folder"
    if os.geteuid():
        (folder / "kept").mkdir(mode=0o555)
        yield "kept", "kept is a folder that you may not write into"
        yield "kept/below", "kept is a folder that you may not write into"


def bad_folders(script, folder):
    """It is said at once; then the program refuses, in its order: a capture that is missing first."""
    places = list(bad_places(folder))
    before = files_below(folder)
    for place, why in places:
        told = f"replay: {place} can't be written into: {why}\n{GOES_ON}"
        for words in (["run", "cap", place], ["prepare", "cap", place], ["generate", "5", place]):
            same(f"{words}", foretold(script, folder, words), (FAULT, told))
        words = ["run", "none", place]
        same(f"{words}", foretold(script, folder, words), ((4, "missing: none/start.cap\n"), told))
        words = ["run", "cap", place, "--lanes", "65"]
        came, said = asked(script, folder, words)
        same(f"{words}", (came, said.split("\n")[0]), ((2, "bad command\n"), "replay: --lanes 65: a number from 1 to 64"))
    same("what stands", files_below(folder), before)
    return len(places)


def names_in_the_way(script, folder):
    """A folder has the name of a file: it is said where the command writes that file."""
    for name, options, is_written in (("report.csv", (), True), ("causes.csv", (), True), ("fence.txt", ("--mode=fence",), True), ("fence.txt", (), False),
                                      ("fence.txt", ("--mode", "scn", "--change", "none"), False)):
        out = folder / f"way-{name}-{len(options)}"
        (out / name).mkdir(parents=True)
        _, said = foretold(script, folder, ["run", "cap", out.name, *options])
        same(f"{name} {options}", said, f"replay: {out.name}/{name} can't be written: it is a folder\n{GOES_ON}" if is_written else "")


def ports(script, folder):
    """A port that is in use, for a service; one where nobody listens, for a run. Where it is as it should be nothing is said."""
    with socket.socket() as other:
        other.bind((HOST, 0))
        other.listen()
        port = other.getsockname()[1]
        words = ["serve", "again", "start", "1", "--port", str(port)]
        came, said = asked(script, folder, words)
        same("a port in use", (came, said.split("\n")[0]), (FAULT, f"replay: port {port} of 127.0.0.1 is in use: somebody listens there"))
    came, said = asked(script, folder, ["run", "cap", "sent", f"--target={port}"])
    same("nobody listens", (came, said.split("\n")[0]), ((10, "link fault\n"), f"replay: nobody listens at port {port} of 127.0.0.1, to which the calls are to be sent"))
    (folder / "there").mkdir()
    with open(folder / "there/told", "w+") as told, Service(script, folder / "there", 1, stderr=told) as service:
        same("a run to a service", asked(script, folder, ["run", "one", "sent", "--target", str(service.port)]), ((0, "replayed 1 calls, 0 divergent\n"), ""))
        same("a service", service.ended()[0], 0)
        told.seek(0)
        same("what it says", [line for line in told.read().split("\n") if line.startswith("replay")], [])


def long_start():
    rows = "".join(f"row {row} 0 [i{row},t{'%20' * len(TEXT)}]\n" for row in range(1, ROWS + 1))
    return ("start 1\nlevel 1\nsvc main rw\ntable t\ncol id int 1 1000000 notnull\ncol note text 1000 null\n"
            f"{rows}nextrow {ROWS + 1}\nsessions 1\nend\n")


def large_files(script, folder):
    """A service that wrote a file which no run reads says so; the run refuses it."""
    place = folder / "large"
    place.mkdir()
    with open(place / "told", "w+") as told, Service(script, place, 1, start=long_start(), stderr=told) as service:
        with Client(service.port) as client:
            same("a connect", client.ask(CONNECT), outcome("connected"))
            for _ in range(ASKED):
                client.ask(sql("SELECT id, note FROM t"))
        same("a service", service.ended(), (0, f"served 1 connections, {ASKED + 2} calls\n"))
        told.seek(0)
        size = (place / "cap/session-000.cap").stat().st_size
        same("is large", size > LIMIT, True)
        same("what it says", [line for line in told.read().split("\n") if line.startswith("replay")], [LARGE.format("cap/session-000.cap", size)[:-1]])
    same("a run of it", foretold(script, place, ["run", "cap", "out"]), ((8, "too long: cap/session-000.cap\n"), ""))


def times(script, folder):
    """Behind a run the script says on a terminal how long the clients took and how long the run did. Elsewhere it says nothing."""
    pause = 1_700_000
    shutil.copytree(folder / "cap", folder / "slow")
    lines = (folder / "slow/session-000.cap").read_text().split("\n")
    lines[2:4] = [line.replace(" 0 0 ", f" {pause} {pause} ", 1) for line in lines[2:4]]
    (folder / "slow/session-000.cap").write_text("\n".join(lines))
    for think, least in (("100", 1.7), ("0", 0.0)):
        words = ["run", "slow", "times", "--think", think]
        with Terminal() as terminal:
            came, _ = asked(script, folder, words, stderr=terminal.given)
            said = terminal.text().split("\n")[-2]
        same(f"{words}", came, DONE)
        same(f"{words}: how long the capture was", said.split(" s")[0], "replay: the capture lasted 1.7")
        took = float(said.removesuffix(" s in all").split(" ")[-1])
        same(f"{words}: how long it took: {took}", least <= took < least + PATIENCE, True)
    same("elsewhere", asked(script, folder, ["run", "slow", "times", "--think", "0"]), (DONE, ""))


def sentences(script, folder):
    """Behind a status it is said what a person needs, and behind an end that is good nothing."""
    told = dict(line.split(" ", 1) for line in (HERE / "usage/statuses").read_text().splitlines())
    place = folder / "sentences"
    for name in ("three/start.cap", "bad/report.txt", "remap.csv"):
        (place / name).parent.mkdir(parents=True, exist_ok=True)
        (place / name).write_text("no\n")
    (place / "two").mkdir()
    (place / "two/report.txt").write_text((EXAMPLE / "read-only/report.txt").read_text())
    shutil.copytree(folder / "cap", place / "cap")
    for words, came, status in (
        (["run", "three", "out"], (3, "bad capture: three/start.cap line 1\n"), "3"),
        (["serve", "again", "remap.csv", "1"], (3, "bad capture: remap.csv line 1\n"), "3"),
        (["run", "cap", "out", "--remap=remap.csv"], (7, "bad remap: row 1\n"), "7-remap"),
        (["run", "cap", "out", "--change", "remap.csv"], (7, "bad change: row 1\n"), "7-change"),
        (["compare", "a", "b"], (11, "no such run: a\n"), "11"),
        (["register", "bad", "a"], (13, "bad report: bad/report.txt line 1\n"), "13"),
        (["register", "two", "two"], (0, "registered two: 3 calls, 2 divergent\n"), None),
        (["accept", "two", "3", "shape"], (14, "no such call: stamp 3\n"), "14"),
        (["runs"], (0, "runs 1\ntwo 3 2\n"), None),
    ):
        same(f"{words}", asked(script, place, words), (came, f"replay: {told[status]}\n" if status else ""))


@in_folder
def foresight(program, folder):
    script = script_with(program, folder / "desk")
    (folder / "start").write_text(small_server.START)
    (folder / "cap").mkdir()
    for name in ("start.cap", "session-000.cap"):
        shutil.copy(EXAMPLE / name, folder / "cap")
    shutil.copytree(folder / "cap", folder / "one")
    (folder / "one/session-000.cap").write_text("session 1 0\n0 0 0 0 - connect tmain > connected [] -\nend\n")
    count = bad_folders(script, folder)
    names_in_the_way(script, folder)
    ports(script, folder)
    large_files(script, folder)
    times(script, folder)
    sentences(script, folder)
    return f"{count} folders that can't be written into and five names in the way, a port in use and one where nobody listens, a file that no run takes, times and what statuses mean: all said, and nothing else changed"
