"""A folder in which the program runs.

Enters: the program, and the files that it finds. Leaves: its status, its line and what it wrote.
"""
import collections
import shutil
import subprocess
import tempfile
from pathlib import Path

from outside.judge import Difference, need

# Where a run takes longer than so many seconds it is taken as hung.
PATIENCE = 300
IN_MEMORY = "/dev/shm"


def new_folder():
    return tempfile.mkdtemp(prefix="replay_desk_", dir=IN_MEMORY if Path(IN_MEMORY).is_dir() else None)


class Bench:
    """`files` are those that were put there; `counts` tells what kinds of runs came; `commands` the words of each run."""

    def __init__(self, program, folder):
        self.program, self.folder = program, Path(folder)
        self.files, self.counts, self.commands = {}, collections.Counter(), []

    def count(self, what, times=1):
        self.counts[what] += times

    def put(self, files):
        for name, data in files.items():
            path = self.folder / name
            path.parent.mkdir(parents=True, exist_ok=True)
            path.write_bytes(data)
        self.files.update(files)

    def remove(self, name):
        (self.folder / name).unlink()
        del self.files[name]

    def read(self, name):
        """The bytes of a file that was put there, or None."""
        return self.files.get(name)

    def found(self, folder):
        """What was written into a folder, by name: its files but for those that are as they were put there."""
        path = self.folder / folder
        found = {each.name: each.read_bytes() for each in path.iterdir()} if path.is_dir() else {}
        for name, data in self.files.items():
            if name.startswith(folder + "/"):
                need(name.removeprefix(folder + "/") in found, f"{name} was there and is gone")
                if found[name.removeprefix(folder + "/")] == data:
                    del found[name.removeprefix(folder + "/")]
        return found

    def open(self, words):
        """Starts the program."""
        self.commands.append([*words])
        return subprocess.Popen(
            [self.program, *words], cwd=self.folder, stdin=subprocess.DEVNULL, stdout=subprocess.PIPE, stderr=subprocess.PIPE)

    def run(self, words):
        """The status, and what was printed."""
        process = self.open(words)
        try:
            printed, told = process.communicate(timeout=PATIENCE)
        except subprocess.TimeoutExpired:
            process.kill()
            process.communicate()
            raise Difference(f"the program did not end within {PATIENCE} s") from None
        need(not told, "on the standard error stands `", told, "`")
        return process.returncode, printed

    def clear(self):
        for each in self.folder.iterdir():
            if each.is_dir():
                shutil.rmtree(each)
            else:
                each.unlink()
        self.files, self.commands = {}, []
