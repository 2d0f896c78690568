"""The files that a run writes but its journal: report.txt, report.csv, tables.txt, maps.csv, causes.csv and fence.txt.

Enters: a complete replay. Leaves: the text of each file, the line and the status.
"""
from outside.causes import write_causes, write_plain_reads
from outside.files import Report, joined
from outside.values import write_reply, write_value, write_values


def report_of(replay):
    calls = replay.job.calls
    return Report(len(calls), [(stamp, calls[stamp].session, calls[stamp].place, kind) for stamp, kind in sorted(replay.classes.items())])


def quoted(text):
    return b'"%s"' % text if b"," in text else text


def write_sheet(replay):
    lines = [b"stamp,session,place,class,captured,replayed"]
    for stamp, session, place, kind in report_of(replay).lines:
        replies = (replay.job.calls[stamp].reply, replay.replies[stamp])
        lines.append(b"%d,%d,%d,%s,%s,%s" % (stamp, session, place, kind.encode(), *(quoted(write_reply(reply)) for reply in replies)))
    return joined(lines)


def write_tables(rows):
    return joined([b"tables 1", *(b"%d %d %s" % (row, table, write_values(values)) for row, table, values in rows), b"end"])


def write_map(learnt):
    return joined([b"captured,replayed", *(write_value(identity) + b"," + write_value(image) for identity, image in learnt)])


def files_of(replay):
    """The files of a complete replay, by name, in the order in which they are written."""
    files = {"journal.txt": replay.journal(), "report.txt": report_of(replay).write(), "report.csv": write_sheet(replay)}
    if replay.server is not None:
        files["tables.txt"] = write_tables(replay.server.committed())
    files["maps.csv"] = write_map(replay.map.learnt)
    if replay.server is not None:
        if replay.job.mode == "fence" and replay.job.target == replay.job.start:
            files["fence.txt"] = write_plain_reads(replay)
        files["causes.csv"] = write_causes(replay)
    return files


def ending_of(replay):
    """The status and the line of a complete replay."""
    line = b"replayed %d calls, %d divergent" % (len(replay.job.calls), len(replay.classes))
    return (1 if replay.classes else 0), line
