"""Why calls differ, and which reads are sure not to.

Enters: a complete replay. Leaves: the texts of causes.csv and fence.txt.
"""
from outside.files import joined
from outside.replay import NoImage, image_values
from outside.server import Server
from outside.statements import Select, SelectTotals, parse
from outside.values import is_id


def imaged_changes(id_map, changes, learnt):
    return frozenset((id_map.image(("row", row), learnt)[1], table, image_values(id_map, values, learnt)) for row, table, values in changes)


def imaged_rows(id_map, rows, learnt):
    return frozenset(id_map.image(("row", row), learnt)[1] for row in rows)


def imaged_keys(id_map, keys, learnt):
    return frozenset((table, id_map.image(key, learnt)) for table, key in keys)


def imaged_view(id_map, view, learnt):
    """The captured view with each id's image in its place; `NoImage` where one has none."""
    points = tuple(
        (name, imaged_changes(id_map, changes, learnt), imaged_rows(id_map, rows, learnt), imaged_keys(id_map, keys, learnt))
        for name, changes, rows, keys in view.points
    )
    return view._replace(
        changes=imaged_changes(id_map, view.changes, learnt), rows=imaged_rows(id_map, view.rows, learnt),
        keys=imaged_keys(id_map, view.keys, learnt), points=points, visible=imaged_changes(id_map, view.visible, learnt),
        others_rows=imaged_rows(id_map, view.others_rows, learnt),
        others_keys=frozenset(id_map.image(key, learnt) for key in view.others_keys),
    )


def are_twin_calls(replay, captured, met):
    if captured[0] == "disconnect":
        return True
    if captured[0] == "connect":
        services = {name for name, _ in replay.job.start.services}
        return (captured[1] in services) == (met.sent[1] in services)
    return image_values(replay.map, captured[2], met.learnt) == met.sent[2]


def met_the_same(replay, stamp, view):
    """Whether the call met what it met in the capture, where it had that view."""
    met = replay.met[stamp]
    try:
        return are_twin_calls(replay, replay.job.calls[stamp].call, met) and imaged_view(replay.map, view, met.learnt) == met.view
    except NoImage:
        return False


def write_causes(replay):
    lines, server = [b"stamp,cause"], Server(replay.job.start)
    for captured in replay.job.calls if replay.classes else ():
        if captured.stamp in replay.classes:
            same = met_the_same(replay, captured.stamp, server.view(captured.session, captured.call))
            lines.append(b"%d,%s" % (captured.stamp, b"upgrade" if same else b"timing"))
        server.answer(captured.session, captured.call)
    return joined(lines)


def is_plain_read(call):
    statement = parse(call[1]) if call[0] == "sql" else None
    return isinstance(statement, SelectTotals) or (isinstance(statement, Select) and not statement.for_update)


def write_plain_reads(replay):
    lines, server = [b"fence 1"], Server(replay.job.start)
    for captured in replay.job.calls:
        met, call = replay.met[captured.stamp], captured.call
        if is_plain_read(call) and met.plain and server.session(captured.session).is_clean():
            if all(not is_id(value) or replay.map.knows(value, met.learnt) for value in call[2]):
                lines.append(b"%d" % captured.stamp)
        server.answer(captured.session, call)
    return joined(lines + [b"end"])
