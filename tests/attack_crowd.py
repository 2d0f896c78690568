"""Sixty-four connections at once. Each answer is compared with the capture, and the capture is replayed."""
import random
from concurrent.futures import ThreadPoolExecutor

from attack_program import Client, Service, in_folder, same
from conversation_answers import call_text, reply_text, value_json

CONNECTIONS, CALLS = 64, 100
STATEMENTS = (
    "SELECT * FROM acct WHERE id < 4 ORDER BY id", "SELECT SUM(bal), COUNT(*) FROM acct", "SELECT COUNT(*), SUM(qty) FROM item",
    "COMMIT", "COMMIT", "ROLLBACK", "SET TRANSACTION READ ONLY", "INSERT INTO item VALUES (s.NEXTVAL, 5)",
    "UPDATE acct SET bal = bal + 1 WHERE id = 1", "UPDATE acct SET bal = bal - 1 WHERE id = 2", "DELETE FROM acct WHERE id > 30",
    "SELECT s.NEXTVAL FROM dual", "SELECT", "UPDATE item SET qty = qty + 1 WHERE qty > 900",
)
FINDS = {"row": "SELECT ROWID FROM acct WHERE ROWID = :1", "draw": "SELECT qty FROM item WHERE no = :1"}
STRANGE = ({"sql": "SELECT", "binds": [{"row": 10**9}]}, {"connect": 1}, [], {"sql": "COMMIT", "connect": "main"})


# Answers.


def value_of(told):
    """A value from its JSON."""
    if isinstance(told, dict):
        return ("row", told["row"]) if "row" in told else ("draw", told["seq"], told["draw"])
    return told


def outcome_of(told):
    """An outcome from its JSON."""
    ((word, value),) = told.items()
    if word == "rows":
        return word, [list(map(value_of, row)) for row in value]
    if word == "committed":
        return word, [(image["row"], image["table"], image["now"] and list(map(value_of, image["now"]))) for image in value]
    return (word,) if value is True else (word, value)


def reply_of(told):
    """A reply from its JSON."""
    return outcome_of(told["outcome"]), list(map(value_of, told["draws"])), told["made"] and told["made"]["row"]


def call_json(call):
    return {call[0]: True} if len(call) == 1 else {call[0]: call[1]} | ({"binds": list(map(value_json, call[2]))} if call[2:] else {})


# Connections.


class Guest:
    """One of the connections: what it says, what it was answered, and the ids that it was given."""

    def __init__(self, port, number):
        self.random, self.said = random.Random(number), []
        self.given = {"row": [("row", 1), ("row", 2)], "draw": []}
        with Client(port) as client:
            _, self.session = client.session()
            self.say(client, ("connect", self.random.choice(("main", "main", "main", "report", "none"))))
            for _ in range(CALLS):
                self.stray(client)
                self.say(client, self.call())
            if self.random.random() < 0.5:
                self.say(client, ("disconnect",))
            same("calls of a connection", client.session(), (len(self.said), self.session))

    def call(self):
        kind = self.random.randrange(10)
        if kind < 7:
            return "sql", self.random.choice(STATEMENTS), ()
        if kind == 7:
            return "sql", "INSERT INTO acct VALUES (:1, :2)", (self.random.randrange(40), self.random.randrange(900))
        word = ("row", "draw")[kind - 8]
        return "sql", FINDS[word], (self.random.choice(self.given[word] or [1]),)

    def stray(self, client):
        """Sometimes something that is no call, or that binds an id which was never given."""
        if self.random.random() < 0.1:
            same("an answer to no call", client.ask(self.random.choice(STRANGE)), 400)

    def say(self, client, call):
        reply = reply_of(client.ask(call_json(call)))
        self.given["draw"] += reply[1]
        self.given["row"] += [("row", reply[2])] if reply[2] else []
        self.said.append((call, reply))

    def texts(self):
        """Its calls with their answers, as a session file spells them. A session that is still connected is disconnected."""
        connects = self.said[0][1][0] == ("connected",)
        last = [(("disconnect",), (("disconnected",), [], None))] if connects and self.said[-1][0] != ("disconnect",) else []
        return [f"{call_text(call)} > {reply_text(reply)}" for call, reply in self.said + last]


@in_folder
def crowd(program, folder):
    """All at once; how many calls there were, and how many of them were refused since another session held a row or a key."""
    with Service(program, folder, CONNECTIONS) as service, ThreadPoolExecutor(CONNECTIONS) as pool:
        guests = list(pool.map(lambda number: Guest(service.port, number), range(CONNECTIONS)))
        calls = sum(len(guest.texts()) for guest in guests)
        service.finish(calls)
    same("sessions", sorted(guest.session for guest in guests), list(range(CONNECTIONS)))
    for guest in guests:
        same(f"session {guest.session}", service.said(guest.session), guest.texts())
    service.replays(program, calls)
    held = sum(reply[0] == ("refused", 20) for guest in guests for _, reply in guest.said)
    return f"{CONNECTIONS} connections at once, {calls} calls, {held} of them refused for what another session held; all replayed"
