"""The register of runs: register, runs, accept and compare.

Enters: the words of a command, and the bytes of reports. Leaves: the status and the lines, and the register after it.
"""
import re

from outside.files import CLASSES, BadLine, Report, read_report
from outside.judge import need
from outside.spoiling import other_bytes, other_fields, other_lines

NAME_OF_RUN = re.compile(r"[a-z][a-z0-9_]{0,29}")
NUMBER = re.compile(r"0|[1-9][0-9]{0,19}")
NAMES = ("a", "b", "a", "b", "a", "b", "a", "b", "base_1", "z" * 30)
NO_NAMES = ("A", "", "1a", "z" * 31, "a-b", "_a", "a b", "é")
NO_STAMPS = ("01", "4294967296", "18446744073709551615", "18446744073709551616", "-1", "", "+1", "1 ")
NO_CLASSES = ("same", "Images", "", "x", "shape ")
BAD_COMMAND = (2, b"bad command\n")


class Register:
    """What is kept: the bytes of a report by its name, and what is accepted beside a name."""

    def __init__(self, read):
        self.read, self.reports, self.accepted = read, {}, set()

    def answer(self, words):
        """The status and what is printed."""
        command, *rest = words
        return getattr(self, command)(*rest)

    def register(self, folder, name):
        if not NAME_OF_RUN.fullmatch(name):
            return BAD_COMMAND
        file = folder + "/report.txt"
        data = self.read(file)
        if data is None:
            return 4, b"missing: %s\n" % file.encode()
        try:
            report = read_report(data)
        except BadLine as bad:
            return 13, b"bad report: %s line %d\n" % (file.encode(), bad.line)
        if self.reports.setdefault(name, data) != data:
            return 12, b"other run: %s\n" % name.encode()
        return 0, b"registered %s: %d calls, %d divergent\n" % (name.encode(), report.calls, len(report.lines))

    def runs(self):
        lines = [b"runs %d\n" % len(self.reports)]
        for name in sorted(self.reports):
            report = read_report(self.reports[name])
            lines.append(b"%s %d %d\n" % (name.encode(), report.calls, len(report.lines)))
        return 0, b"".join(lines)

    def accept(self, name, stamp, kind):
        if not NAME_OF_RUN.fullmatch(name) or not NUMBER.fullmatch(stamp) or int(stamp) >= 2**64 or kind not in CLASSES:
            return BAD_COMMAND
        if name not in self.reports:
            return 11, b"no such run: %s\n" % name.encode()
        if int(stamp) >= read_report(self.reports[name]).calls:
            return 14, b"no such call: stamp %s\n" % stamp.encode()
        self.accepted.add((name, int(stamp), kind))
        return 0, b"accepted %s %s %s\n" % (name.encode(), stamp.encode(), kind.encode())

    def compare(self, first, second):
        if not NAME_OF_RUN.fullmatch(first) or not NAME_OF_RUN.fullmatch(second):
            return BAD_COMMAND
        for name in (first, second):
            if name not in self.reports:
                return 11, b"no such run: %s\n" % name.encode()
        left, right = read_report(self.reports[first]), read_report(self.reports[second])
        if left.calls != right.calls:
            return 15, b"other capture: %s %d, %s %d\n" % (first.encode(), left.calls, second.encode(), right.calls)
        lines = self.differences(first, left.lines, right.lines)
        text = "\n".join([f"compare {first} {second}", *lines, "end", ""])
        return (1 if any(not line.startswith("gone") for line in lines) else 0), text.encode()

    def differences(self, name, left, right):
        left, right, lines = {line[0]: line for line in left}, {line[0]: line for line in right}, []
        for stamp in sorted(left.keys() | right.keys()):
            if stamp not in right:
                lines.append("gone %d %d %d %s" % left[stamp])
                continue
            kind = right[stamp][3]
            if (name, stamp, kind) in self.accepted or left.get(stamp, (None,) * 4)[3] == kind:
                continue
            lines.append("changed %d %d %d %s %s" % (*left[stamp], kind) if stamp in left else "new %d %d %d %s" % right[stamp])
        return lines


# Random sequences of commands.


def random_report(chance, calls):
    kinds = CLASSES if chance.random() < 0.7 else ("images", "shape")
    stamps = [stamp for stamp in range(calls) if chance.random() < 0.4]
    lines = [(stamp, chance.choice((0, 1, 2**32 - 1)), chance.choice((0, 1, 5)), chance.choice(kinds)) for stamp in stamps]
    return Report(calls, lines).write()


def random_reports(chance, calls):
    reports = {}
    for number in range(4):
        data = random_report(chance, calls if chance.random() < 0.8 else calls + 1)
        if chance.random() < 0.25:
            data = chance.choice((other_fields, other_bytes, other_lines))(chance, data)
        reports[f"out{number}/report.txt"] = data
    return reports


def random_words(chance, calls, kept):
    """The words of a command, mostly good; while few runs are kept mostly `register`."""
    def name():
        return chance.choice(NAMES if chance.random() < 0.95 else NO_NAMES)
    luck = chance.random() if kept > 1 else chance.random() / 2
    if luck < 0.3:
        return ["register", f"out{chance.randrange(4)}" if chance.random() < 0.95 else "none", name()]
    if luck < 0.36:
        return ["runs"]
    if luck < 0.6:
        stamp = str(chance.randrange(calls + 2)) if chance.random() < 0.92 else chance.choice(NO_STAMPS)
        return ["accept", name(), stamp, chance.choice(CLASSES if chance.random() < 0.93 else NO_CLASSES)]
    return ["compare", name(), name()]


def random_commands(chance, bench):
    """Commands over one register, each compared with what it must print."""
    calls = chance.choice((0, 1, 3, 5))
    bench.put(random_reports(chance, calls))
    register = Register(bench.read)
    for _ in range(chance.choice((3, 6, 10))):
        words = random_words(chance, calls, len(register.reports))
        wanted, found = register.answer(words), bench.run(words)
        need(found == wanted, f"{' '.join(words)}: found status {found[0]} and `", found[1], f"`, wanted {wanted[0]} and `", wanted[1], "`")
        bench.count(f"{words[0]} status {wanted[0]}")
