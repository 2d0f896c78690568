#!/usr/bin/env python3
"""Attacks the built program over 127.0.0.1 and in folders of its own, and tells what it withstood.

tests/attack.py PROGRAM [PART ..]   (PROGRAM: the built program replay_desk; without parts all of them, in this order)

The end is 0 where nothing came that was not expected. What is made stands below the system's folder for temporary files, and is
taken away again; no program that was started outlives the script. No test depends on a short delay: what is waited for may take a minute, and what
is timed has some seconds to spare.
"""
import os
import subprocess
import sys
import threading
import time

from attack_altered import altered
from attack_clock import clock
from attack_closing import register_not_closed
from attack_crowd import crowd
from attack_devices import devices, services_on_devices
from attack_ended import ended_runs, ended_services
from attack_foresight import foresight
from attack_kept_texts import kept_texts
from attack_killed import killed
from attack_lanes import lanes
from attack_limits import limits
from attack_program import Wrong, same
from attack_remote import remote
from attack_side_by_side import side_by_side
from attack_stopped import stopped
from attack_strangers import strangers
from attack_terminal import terminal

PARTS = (crowd, strangers, limits, devices, services_on_devices, killed, ended_runs, ended_services, altered, remote, side_by_side, lanes, clock, terminal,
         stopped, foresight, register_not_closed, kept_texts)


def held():
    """How many descriptors and threads this script has."""
    return len(os.listdir("/proc/self/fd")), threading.active_count()


def attack(program, part):
    """Makes one part, and tells what came of it. Whether it went as expected, and left nothing open."""
    begun, name, before = time.monotonic(), part.__name__, held()
    try:
        told, stands = part(program), True
        same("descriptors and threads behind it", held(), before)
    except (Wrong, OSError, subprocess.TimeoutExpired) as wrong:
        told, stands = f"FAILED: {type(wrong).__name__} {wrong}", False
    print(f"{name}: {told} ({time.monotonic() - begun:.1f} s)", flush=True)
    return stands


def main(words):
    if not words or not os.access(words[0], os.X_OK):
        sys.exit(__doc__)
    parts = [part for part in PARTS if not words[1:] or part.__name__ in words[1:]]
    stands = [attack(os.path.abspath(words[0]), part) for part in parts]
    return 0 if all(stands) else 1


if __name__ == "__main__":
    sys.exit(main(sys.argv[1:]))
