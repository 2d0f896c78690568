#!/usr/bin/env python3
"""A client of the desk's server: one session with a few calls, whose answers it prints.

examples/client.py [PORT]   (7080 without PORT)

Start the server first, in another terminal. It ends by itself when the session has ended, and leaves the capture:

    ./replay serve capture examples/first/start.cap 1

A client keeps one connection for its session. It posts a call as JSON to `/call`, and gets the reply as JSON. The standard
library sends the length of each body, and reads an answer by its length.
"""
import http.client
import json
import sys

HOST = "127.0.0.1"
PORT = 7080


class Session:
    """A session with the server, over one connection."""

    def __init__(self, port):
        self.connection = http.client.HTTPConnection(HOST, port)

    def call(self, call):
        """Sends a call and gives the reply. A refused statement is a reply too: `{"refused":20}` with the number of the fault."""
        self.connection.request("POST", "/call", json.dumps(call))
        answer = self.connection.getresponse()
        body = answer.read()
        if answer.status != http.client.OK:
            raise SystemExit(f"{call}: {answer.status} {answer.reason}")
        return json.loads(body)

    def connect(self, service):
        return self.call({"connect": service})

    def sql(self, statement, *binds):
        """Binds are None, numbers, texts, and the ids that the server gave: `{"row":3}`, `{"draw":10,"seq":0}`."""
        return self.call({"sql": statement, "binds": binds})

    def disconnect(self):
        reply = self.call({"disconnect": True})
        self.connection.close()
        return reply


def main():
    session = Session(int(sys.argv[1]) if len(sys.argv) > 1 else PORT)
    print("connect:   ", session.connect("main")["outcome"])
    inserted = session.sql("INSERT INTO acct VALUES (:1, :2)", 3, 7)
    print("insert:    ", inserted["outcome"], "made", inserted["made"])
    print("select:    ", session.sql("SELECT id, bal FROM acct WHERE ROWID = :1", inserted["made"])["outcome"])
    print("commit:    ", session.sql("COMMIT")["outcome"])
    print("disconnect:", session.disconnect()["outcome"])


if __name__ == "__main__":
    main()
