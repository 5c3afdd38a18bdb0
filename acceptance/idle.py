#!/usr/bin/env python3
"""How soon an idle worker takes what a client submits, by the program as it was built: each line says what was tried and what came.

acceptance/idle.py PROGRAM: PROGRAM is fts as it was built. It serves a folder of its own, with one worker, on a free port of 127.0.0.1. A worker that
found nothing eligible looks again once somebody counted a change, at a rest of 100 ms, and else after a second: so a worker that is told of no change
takes a file half a second behind its submission in the middle. A line that is otherwise says so, and then the status is 1.
"""
import random
import sys
import time

from serving import A, B, Service, wrong_in

SETTINGS = f'vo = "demo"\nworkers = 1\n[[storage]]\nurl = "{A}"\n[[storage]]\nurl = "{B}"\n'
# submissions, and seconds from one to its file's copy that are allowed in the middle, with room for a machine that is busy
TRIES, MIDDLE = 21, 0.25
# seconds after which a copy counts as missing
MISSING = 10


def seconds_to_copy(service, name):
    """Seconds from a submission's reply until the destination is there. The folder is looked at, so that no request wakes the worker."""
    service.submit(name)
    begun = time.monotonic()
    while service.copied(f"{name}.0") is None and time.monotonic() < begun + MISSING:
        time.sleep(0.002)
    return time.monotonic() - begun


def takes_soon(service):
    chance = random.Random(5)
    times = []
    for number in range(TRIES):
        service.source(f"f{number}", b"abc")
        time.sleep(1.2 + chance.random())
        times.append(seconds_to_copy(service, f"f{number}"))
    middle = sorted(times)[TRIES // 2]
    yield f"{TRIES} files for an idle worker: the middle {middle:.3f} s from the reply to the copy, the slowest {max(times):.3f} s", middle < MIDDLE


def main(words):
    if len(words) != 1:
        sys.exit(__doc__)
    service = Service(words[0], settings=SETTINGS)
    wrong = wrong_in(takes_soon(service))
    service.stop()
    print(f"otherwise than wanted {wrong}")
    return 1 if wrong else 0


if __name__ == "__main__":
    sys.exit(main(sys.argv[1:]))
