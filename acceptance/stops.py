#!/usr/bin/env python3
"""An orderly stop of a service, by the program as it was built: each line says what was tried and what came.

acceptance/stops.py PROGRAM [STOPS]: PROGRAM is fts as it was built. It serves folders of its own on free ports of 127.0.0.1. STOPS is how often a
service under load is stopped and started again (10 where none is named). What is wanted stands in "Stop" of docs/OPERATING.md.
"""
import collections
import http.client
import json
import os
import random
import signal
import subprocess
import sys
import time

from serving import A, B, Service, notes_in, wrong_in

# files of a load, how many of them a job has, and bytes of each
FILES, EACH, BYTES = 1600, 100, 2000
# seconds within which a service that has nothing to copy ends, and one with small files
SOON, WAITS = 3, 20
STOPPED = 23
SETTINGS = f'vo = "demo"\nworkers = 16\n[[storage]]\nurl = "{A}"\n[[storage]]\nurl = "{B}"\n'


def told_to_stop(service):
    """Sets the stop file, and gives the status, the note and the seconds until the service has ended."""
    begun = time.monotonic()
    (service.path / "fts.stop").touch()
    try:
        _, note = service.process.communicate(timeout=WAITS)
    except subprocess.TimeoutExpired:
        service.process.kill()
        _, note = service.process.communicate()
    return service.process.returncode, notes_in(note), time.monotonic() - begun


def job_of(names, turn):
    files = [{"sources": [f"{A}/{name}"], "destinations": [f"{B}/{turn}.{name}"]} for name in names]
    return json.dumps({"files": files}).encode()


def states_of(service, jobs):
    """The states and reasons of all files of these jobs."""
    rows = [row for job in jobs for row in service.ask("GET", f"/jobs/{job}/files")[1]]
    return collections.Counter(row["file_state"] if row["file_state"] == "FINISHED" else f"{row['file_state']} {row['reason']}" for row in rows)


def unequal(service, turns, contents):
    """How many destinations don't equal their sources."""
    return sum(service.copied(f"{turn}.{name}") != content for turn in range(turns) for name, content in contents.items())


def under_load(program, stops):
    """Stops while files are copied: none may end otherwise than FINISHED, at its first attempt."""
    chance, jobs, ends = random.Random(7), [], []
    service = Service(program, lanes=8, settings=SETTINGS)
    contents = {f"f{number}": chance.randbytes(BYTES) for number in range(FILES // max(stops, 1) or 1)}
    for name, content in contents.items():
        service.source(name, content)
    names = sorted(contents)
    for turn in range(stops):
        for first in range(0, len(names), EACH):
            status, answer = service.ask("POST", "/jobs", job_of(names[first:first + EACH], turn))
            assert status == 200, answer
            jobs.append(answer["job_id"])
        time.sleep(chance.uniform(0.0, 0.1))
        ends.append(told_to_stop(service))
        service.start()
    for job in jobs:
        service.settle(job)
    states, differ = states_of(service, jobs), unequal(service, stops, contents)
    service.stop()
    statuses = collections.Counter((status, note) for status, note, _ in ends)
    slowest = max(seconds for _, _, seconds in ends)
    yield f"{stops} stops over {stops * len(names)} files: ended {dict(statuses)}, slowest {slowest:.2f} s; {dict(states)}, {differ} unlike their source", (
        set(statuses) == {(STOPPED, "fts: stopped\n")} and set(states) == {"FINISHED"} and not differ
    )


def beside_clients(program):
    """A kept connection is ended between two requests; one that sends a request when the stop comes is answered first."""
    service = Service(program, lanes=4)
    kept = http.client.HTTPConnection("127.0.0.1", service.port, timeout=WAITS)
    kept.request("GET", "/jobs")
    kept.getresponse().read()
    asking = http.client.HTTPConnection("127.0.0.1", service.port, timeout=WAITS)
    asking.connect()
    asking.sock.sendall(b"GET /jobs HTTP/1.1\r\nHost: a\r\n")
    time.sleep(0.2)
    begun = time.monotonic()
    (service.path / "fts.stop").touch()
    time.sleep(2)
    asking.sock.sendall(b"\r\n")
    answer = http.client.HTTPResponse(asking.sock)
    answer.begin()
    answer.read()
    status, note, _ = told_to_stop(service)
    took = time.monotonic() - begun - 2
    closed = kept.sock.recv(1) == b""
    yield f"a request that began before the stop: {answer.status}; a kept connection is closed: {closed}; ended {status} {note!r}, {took:.2f} s behind it", (
        answer.status == 200 and closed and (status, note) == (STOPPED, "fts: stopped\n") and took < SOON
    )
    kept.close()
    asking.close()


def large(program):
    """A copy that runs is brought to its end and reported, and what waits behind it stays."""
    service = Service(program, lanes=2, settings=SETTINGS.replace("workers = 16", "workers = 1"))
    content = os.urandom(1 << 28)
    service.source("big", content)
    job = service.submit("big", 2)
    while service.ask("GET", f"/jobs/{job}/files")[1][0]["file_state"] != "ACTIVE":
        time.sleep(0.005)
    status, note, took = told_to_stop(service)
    shown = subprocess.run([program, service.path, "show"], capture_output=True, text=True, check=True).stdout
    states = [line.split()[3] for line in shown.splitlines() if line.startswith("file")]
    yield f"a copy of {len(content)} bytes that runs: ended {status} {note!r} after {took:.2f} s, the files are {states}", (
        status == STOPPED and states == ["FINISHED", "SUBMITTED"] and service.copied("big.0") == content
    )
    service.start()
    gone = not (service.path / "fts.stop").exists()
    states = service.settle(job)
    service.stop()
    yield f"started again: the stop file is gone: {gone}, the files are {states}", gone and states == ["FINISHED", "FINISHED"]


def killed(program):
    """What a kill may leave: a good copy that is FAILED at the next start, one for each worker at most."""
    service = Service(program, lanes=8, settings=SETTINGS)
    contents = {f"f{number}": os.urandom(BYTES) for number in range(400)}
    for name, content in contents.items():
        service.source(name, content)
    names, jobs = sorted(contents), []
    for first in range(0, len(names), EACH):
        jobs.append(service.ask("POST", "/jobs", job_of(names[first:first + EACH], 0))[1]["job_id"])
    time.sleep(0.05)
    service.stop(signal.SIGKILL)
    service.start()
    for job in jobs:
        service.settle(job)
    states = states_of(service, jobs)
    service.stop()
    failed = sum(count for state, count in states.items() if state != "FINISHED")
    yield f"a kill over {len(names)} files with 16 workers: {dict(states)}", failed <= 16 and set(states) <= {"FINISHED", "FAILED destination exists"}


def main():
    if len(sys.argv) not in (2, 3):
        print(__doc__, file=sys.stderr)
        return 2
    program, stops = os.path.abspath(sys.argv[1]), int(sys.argv[2]) if len(sys.argv) == 3 else 10
    lines = (line for tried in (under_load(program, stops), beside_clients(program), large(program), killed(program)) for line in tried)
    return wrong_in(lines)


if __name__ == "__main__":
    sys.exit(main())
