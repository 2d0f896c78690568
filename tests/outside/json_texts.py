"""Calls and replies as JSON.

Enters: a call or a reply. Leaves: the compact text of it, or some other spelling; and a call from the text of one.
"""
import json

ALONE = ("rolledback", "marked", "connected", "disconnected")
SPACES = ("", "", "", "", " ", "\n", "\t ", " \r\n  ")


def plain_value(value):
    if value[0] == "null":
        return None
    if value[0] == "integer":
        return value[1]
    if value[0] == "text":
        return value[1].decode()
    return {"row": value[1]} if value[0] == "row" else {"draw": value[2], "seq": value[1]}


def plain_values(values):
    return [plain_value(value) for value in values]


def plain_image(image):
    return {"now": None if image.values is None else plain_values(image.values), "row": image.row, "table": image.table}


def plain_call(call):
    if call[0] == "connect":
        return {"connect": call[1].decode()}
    if call[0] == "sql":
        return {"binds": plain_values(call[2]), "sql": call[1].decode()}
    return {"disconnect": True}


def plain_reply(reply):
    word = reply.outcome[0]
    if word == "rows":
        outcome = [plain_values(row) for row in reply.outcome[1]]
    elif word == "committed":
        outcome = [plain_image(image) for image in reply.outcome[1]]
    else:
        outcome = True if word in ALONE else reply.outcome[1]
    made = None if reply.made is None else {"row": reply.made}
    return {"draws": plain_values(reply.draws), "made": made, "outcome": {word: outcome}}


def compact(plain):
    return json.dumps(plain, ensure_ascii=False, separators=(",", ":"), sort_keys=True).encode()


def other_string(chance, text):
    """A string with some characters escaped that need not be."""
    found = ""
    for letter in text:
        if chance.random() < 0.15:
            found += json.dumps(letter + "é")[1:-7] if ord(letter) > 127 else "\\u%04x" % ord(letter)
        else:
            found += json.dumps(letter, ensure_ascii=False)[1:-1]
    return '"' + found + '"'


def spelled(chance, plain):
    """Some spelling of a JSON value: keys in any order, with spaces, and with escapes."""
    def space():
        return chance.choice(SPACES)
    if isinstance(plain, dict):
        members = [(other_string(chance, key), spelled(chance, value)) for key, value in plain.items()]
        chance.shuffle(members)
        return "{" + ",".join(space() + key + space() + ":" + space() + value + space() for key, value in members) + "}"
    if isinstance(plain, list):
        return "[" + ",".join(space() + spelled(chance, value) + space() for value in plain) + "]"
    return other_string(chance, plain) if isinstance(plain, str) else json.dumps(plain)


def value_of(plain):
    if plain is None:
        return ("null",)
    if isinstance(plain, int):
        return ("integer", plain)
    if isinstance(plain, str):
        return ("text", plain.encode())
    return ("row", plain["row"]) if "row" in plain else ("draw", plain["seq"], plain["draw"])


def call_of(data):
    """The call of a text that the program wrote."""
    plain = json.loads(data)
    if "connect" in plain:
        return ("connect", plain["connect"].encode())
    if "disconnect" in plain:
        return ("disconnect",)
    return ("sql", plain["sql"].encode(), tuple(map(value_of, plain["binds"])))


# Bodies that are no call.
NO_CALLS = tuple(text.encode() for text in (
    "", "{}", "[]", "1", '"x"', '{"connect":1}', '{"connect":"main","x":1}', '{"disconnect":false}', '{"disconnect":null}',
    '{"disconnect":1}',
    '{"sql":1}', '{"binds":[1]}', '{"sql":"COMMIT","binds":[1.0]}', '{"sql":"COMMIT","binds":[1e0]}', '{"sql":"COMMIT","binds":[true]}',
    '{"sql":"COMMIT","binds":[[1]]}', '{"sql":"COMMIT","binds":{}}', '{"sql":"COMMIT","binds":null}', '{"sql":"COMMIT","binds":[{}]}',
    '{"sql":"COMMIT","binds":[{"row":-1}]}', '{"sql":"COMMIT","binds":[{"row":1,"draw":1}]}', '{"sql":"COMMIT","binds":[{"draw":1}]}',
    '{"sql":"COMMIT","binds":[9223372036854775808]}', '{"sql":"COMMIT","binds":[-9223372036854775809]}',
    '{"sql":"COMMIT","binds":[{"draw":1,"seq":4294967296}]}', '{"sql":"COMMIT","binds":[' + ",".join(["1"] * 17) + "]}",
    '{"connect":"' + "a" * 1001 + '"}', '{"sql":"' + "é" * 501 + '"}', '{"connect":"main"} x', '{"connect":"\\ud800"}',
    "{'connect':'main'}",
    '{"connect":"main",}', '\ufeff{"disconnect":true}', '{"Connect":"main"}', '{"sql":"COMMIT","binds":[01]}',
    '{"sql":"COMMIT","binds":[+1]}',
    '{"connect":"a\nb"}', '{"sql":"COMMIT","binds":[-0]}',
))
# Bodies that are a call at the edge of what is one.
EDGE_CALLS = (
    ('{"sql":"COMMIT","binds":[' + ",".join(["null"] * 16) + "]}", ("sql", b"COMMIT", (("null",),) * 16)),
    ('{"connect":"' + "a" * 1000 + '"}', ("connect", b"a" * 1000)), ('{"sql":"\\u0043OMMIT"}', ("sql", b"COMMIT", ())),
    ('{"connect":"\\ud83d\\ude00"}', ("connect", "\U0001f600".encode())),
    ('{"sql":"","binds":[-9223372036854775808,9223372036854775807]}', ("sql", b"", (("integer", -(2**63)), ("integer", 2**63 - 1)))),
    ('{"connect":"none","connect":"x"}', ("connect", b"x")),
)
