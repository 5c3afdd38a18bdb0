#!/usr/bin/env python3
"""Endpoints whose file system goes away under a service, by the program as it was built: nothing is copied below an empty mount point.

acceptance/mounts.py PROGRAM: PROGRAM is fts as it was built. Root only, since it mounts. The folder of an endpoint is a file system of its own, which is
mounted when the service starts. Behind a copy, which one worker makes, it is unmounted, then another one is mounted there, then it is itself again; and
at the end the other one, over which the service is started anew. Each of these is met by as many copies as are needed for each worker to meet it.
What is wanted stands in "Start" of docs/OPERATING.md. Status 1 where a line is otherwise.
"""
import contextlib
import pathlib
import random
import re
import subprocess
import sys

from failing_device import shell
from grid import Stand, counted
from serving import A, B, wrong_in

COPIES = 8


def told(stand, name, wanted, copies=COPIES):
    """What comes of so many copies, one after the other, and whether it is the same for each."""
    found = [stand.told(stand.send("x", f"{re.sub('[^a-z]', '-', name)}{number}")) for number in range(copies)]
    return f"{name}: {counted(found)}", set(found) == {wanted}


def plays(program, workers):
    with contextlib.ExitStack() as mounts, Stand(program, random.Random(1), workers) as stand:
        devices = [stand.path / name for name in ("own", "other")]
        for place in (*devices, stand.at(B)):
            place.mkdir(parents=True)
            mounts.callback(subprocess.run, ["umount", "-q", str(place)], stderr=subprocess.DEVNULL)
        for device in devices:
            shell(f"mount -t tmpfs -o size=4m tmpfs {device}")
        mounts.callback(stand.stop)

        def mounted(device):
            shell(f"mount --bind {device} {stand.at(B)}")

        stand.put(A, "x", 1000)
        stand.stop()
        mounted(devices[0])
        stand.start()
        yield told(stand, f"mounted, workers {workers}", "FINISHED", 1)
        shell(f"umount {stand.at(B)}")
        yield told(stand, "unmounted", "FAILED (store failed)")
        left = [str(it.relative_to(stand.at(B))) for it in pathlib.Path(stand.at(B)).rglob("*")]
        yield f"below the empty mount point: {left or 'nothing'}", not left
        mounted(devices[1])
        yield told(stand, "another file system", "FAILED (store failed)")
        shell(f"umount {stand.at(B)}")
        mounted(devices[0])
        yield told(stand, "mounted again", "FINISHED")
        shell(f"umount {stand.at(B)}")
        stand.stop()
        mounted(devices[1])
        stand.start()
        yield told(stand, "another one, behind a start", "FINISHED")


def main():
    program = str(pathlib.Path(sys.argv[1]).resolve())
    wrong = sum(wrong_in(plays(program, workers)) for workers in (1, 4))
    print(f"otherwise than wanted {wrong}")
    return 1 if wrong else 0


if __name__ == "__main__":
    sys.exit(main())
