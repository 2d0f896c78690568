"""Ctrl-C while the script `replay` runs a service: a first one ends the capture and keeps what came, a second one ends the service at once."""
import contextlib
import os
import signal
from pathlib import Path

from attack_program import CONNECT, Client, Process, Service, files_below, free_port, in_folder, is_listening, same, script_with, until

COMMIT = {"sql": "COMMIT"}
MARKED = "replay: no more connections are taken, {} of them are still open; the capture is written once they have ended\n"
AGAIN = "replay: Ctrl-C again ends the service at once, without a capture\n"


class Stopped(Service):
    """A service that the script runs, in a group of processes of its own: a terminal's Ctrl-C goes to all of them."""

    def __init__(self, script, folder, connections):
        self.told = open(Path(folder) / "told", "w+")
        super().__init__(script, folder, connections, stderr=self.told, start_new_session=True)

    def __exit__(self, *how):
        if self.is_alive():
            os.killpg(self.process.pid, signal.SIGKILL)
        super().__exit__(*how)
        self.told.close()

    def stop(self):
        os.killpg(self.process.pid, signal.SIGINT)

    def says(self, text):
        until(f"the script says {text!r}", lambda: Path(self.told.name).read_text() == text)


def kept(program, script, folder, out):
    """Of five connections one has ended, and one is still open: its call that comes behind the Ctrl-C is captured, three sessions are empty."""
    (folder / out).mkdir()
    with Stopped(script, folder / out, 5) as service:
        with Client(service.port) as gone:
            same("a connect", gone.ask(CONNECT), {"draws": [], "made": None, "outcome": {"connected": True}})
        with Client(service.port) as still:
            same("a connect", still.ask(CONNECT), {"draws": [], "made": None, "outcome": {"connected": True}})
            until("the first connection is gone", lambda: open_at(service.port) == 1)
            service.stop()
            service.says(MARKED.format(1) + AGAIN)
            same("a call behind Ctrl-C", still.ask(COMMIT), {"draws": [], "made": None, "outcome": {"committed": []}})
        service.finish(5)
        same("sessions", [len(service.said(session)) for session in range(5)], [2, 3, 0, 0, 0])
        service.replays(program, 5)


def nobody(program, script, folder, out):
    """Nobody came: the capture has empty sessions alone."""
    (folder / out).mkdir()
    with Stopped(script, folder / out, 64) as service:
        service.stop()
        service.says(MARKED.format(0))
        service.finish(0)
        service.replays(program, 0)


def at_once(_program, script, folder, out):
    """A second Ctrl-C ends the service at once, with the status that a shell gives for it, and there is no capture."""
    (folder / out).mkdir()
    with Stopped(script, folder / out, 2) as service, Client(service.port) as client:
        client.ask(CONNECT)
        service.stop()
        service.says(MARKED.format(1) + AGAIN)
        service.stop()
        same("its end", service.ended(), (130, ""))
        same("its files", [name for name in files_below(folder / out) if name.startswith("cap/")], [])


def too_early(_program, script, folder, out):
    """Before the service listens, here since its start file does not come, there is nothing to keep: a first Ctrl-C ends it at once."""
    (folder / out).mkdir()
    os.mkfifo(folder / out / "start")
    writer = []

    def is_read():
        with contextlib.suppress(OSError):
            writer.append(os.open(folder / out / "start", os.O_WRONLY | os.O_NONBLOCK))
        return bool(writer)

    with Process(script, folder / out, ["serve", "cap", "start", "2", "--port", str(free_port())], start_new_session=True) as service:
        until("the service reads its start", is_read)
        os.killpg(service.process.pid, signal.SIGINT)
        same("its end", service.ended(), (130, ""))
    os.close(writer[0])
    same("its files", os.listdir(folder / out), ["start"])


def ended_otherwise(_program, script, folder, out):
    """Another signal of the keyboard, and one to the script alone, end the service too."""
    for number, (send, status) in enumerate(((lambda pid: os.killpg(pid, signal.SIGQUIT), 131), (lambda pid: os.kill(pid, signal.SIGTERM), 143))):
        place = folder / f"{out}-{number}"
        place.mkdir()
        with Stopped(script, place, 2) as service:
            send(service.process.pid)
            same("its end", service.ended(), (status, ""))
            until("nobody listens", lambda port=service.port: not is_listening(port))
        same("its files", sorted(files_below(place)), ["start", "told"])


def open_at(port):
    """How many connections to the port are open."""
    wanted = f"0100007F:{port:04X}"
    return sum(line.split()[1] == wanted and line.split()[3] == "01" for line in Path("/proc/net/tcp").read_text().splitlines()[1:])


@in_folder
def stopped(program, folder):
    script = script_with(program, folder / "desk")
    for number, shown in enumerate((kept, nobody, at_once, too_early, ended_otherwise)):
        shown(program, script, folder, f"stopped-{number}")
    return "a first Ctrl-C kept what came, of one connection that was open and of none; a second one, one before it listened and other signals ended the service at once"
