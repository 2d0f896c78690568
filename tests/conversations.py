#!/usr/bin/env python3
"""Made conversations of clients with the desk's HTTP server, and what each comes to, worked out from the rules alone: those of
requests and JSON in `conversation_answers.py`, those of the server in `small_server.py`.

tests/conversations.py loopback PROGRAM [SECONDS]  sends each to the built program's `serve` over 127.0.0.1, and compares
tests/conversations.py make                        prints those whose input fails, as lines for the program of cases `case_commands`
tests/conversations.py expect                      prints what each of these comes to, as its answers

A conversation has a name, a chunking and the bytes that the client sends, which sends no more behind the last one. The chunking is `whole`, `cut`,
where a read gives a few bytes, `bytes`, where it gives one, or `every`, where the bytes are cut into two after each of them in turn. What is
answered is the same. Or it is a number, where each read gives as much as it may and the one with this number, from 0, fails: no client can
bring that about, so these are for the program of cases.

Each conversation has a recorder of its own on the start of `small_server.START`, session 0. Over the loopback each that is `whole` or `cut` has a
`serve` of its own, whole and cut at some places, and the short ones and those of `bytes` byte by byte too; and each place where an `every` may be
cut has a connection of a `serve` of 64, but of that of 8,192 letters some places and the last 200.
Those that neither change nor hold anything are also sent at one time to `serve`s of 64 connections. What is answered and
the session files are compared. It ends with 0 where all are the same.
"""
import sys

import conversation_cases
import conversation_loopback
import small_server
from conversation_answers import coded, expected_line

SECONDS = 50.0


def main(words):
    cases = conversation_cases.all_cases()
    failing = [(name, int(chunking), data) for name, chunking, data in cases if chunking.isdigit()]
    if words == ["make"]:
        print("case inputs_that_fail\nfile start", small_server.START.replace("\n", "/"))
        for _, number, data in failing:
            print(f"conn {number} - 10000 {coded(data)}\nrun - - serve cap start 1")
    elif words == ["expect"]:
        print("case inputs_that_fail")
        for _, number, data in failing:
            print(expected_line(number, data))
    elif words[:1] == ["loopback"] and len(words) in (2, 3):
        return conversation_loopback.compare(words[1], float(words[2]) if words[2:] else SECONDS, cases)
    else:
        sys.exit(__doc__)
    return 0


if __name__ == "__main__":
    sys.exit(main(sys.argv[1:]))
