#!/usr/bin/env python3
"""Cancellations of single files as a client asks for them, while 2,000, 20,000 and 199,800 files wait: the whole request, from socket to socket.

bench/cancellations.py PROGRAM [ROUNDS]: PROGRAM is fts as it was built. It needs gcc, some 1 GB of /dev/shm, and a free port of 127.0.0.1.
The files wait on sixteen links under three activities, their jobs have five priorities. The service's folder is in memory, so a sync costs nothing,
and the one worker is kept in the read of a large file (slow_reads.c), so nothing is claimed. One connection sends a hundred requests at a time,
each DELETE /jobs/{id}/files/{file}. The orders are those of benches claims: every second file in turn, until half are cancelled; as many anywhere; and the
first fifty files of ten jobs in turn. Each size is timed in turn with the others, on a service of its own, and the least time counts.
"""
import json
import os
import pathlib
import re
import shutil
import signal
import socket
import subprocess
import sys
import tempfile
import time

FILES, SIZES, FEW, BATCH = 200, (10, 100, 999), 500, 100
ACTIVITIES = ("default", "urgent", "bulk", "default")
ENDPOINTS = [f"https://{side}{n}.example" for side in "sd" for n in range(4)]
SETTINGS = "".join(
    ['vo = "demo"\nworkers = 1\n']
    + [f'[[storage]]\nurl = "{url}"\n' for url in ENDPOINTS]
    + [f'[[activity]]\nname = "{name}"\nweight = {weight}\n' for name, weight in (("default", 1), ("urgent", 5), ("bulk", 2))]
)
ORDERS = {
    "every second file in turn": (lambda jobs, turn: turn * 2 % (jobs * FILES), lambda jobs: jobs * FILES // 2),
    "half of the files anywhere": (lambda jobs, turn: turn * 7919 % (jobs * FILES), lambda jobs: jobs * FILES // 2),
    "the first 500": (lambda jobs, turn: turn % 10 * FILES + turn // 10 % FILES, lambda jobs: FEW),
}


def request(method, path, body=b""):
    return b"%s %s HTTP/1.1\r\nHost: a\r\nContent-Length: %d\r\n\r\n%s" % (method, path, len(body), body)


class Client:
    """One kept connection."""

    def __init__(self, port):
        self.socket = socket.create_connection(("127.0.0.1", port))
        self.socket.setsockopt(socket.IPPROTO_TCP, socket.TCP_NODELAY, 1)

    def ask(self, requests):
        """The responses to some requests that are sent at once."""
        self.socket.sendall(b"".join(requests))
        held = bytearray()
        while held.count(b"HTTP/1.1 ") < len(requests) or not held.endswith(b"}"):
            held += self.socket.recv(1 << 20)
        statuses = re.findall(rb"HTTP/1.1 (\d+)", bytes(held))
        if set(statuses) != {b"200"}:
            raise SystemExit(f"not all are 200: {set(statuses)}")
        return bytes(held)


def job(number):
    files = []
    for index in range(FILES):
        source, dest = ENDPOINTS[index % 16 // 4], ENDPOINTS[4 + index % 4]
        name = f"{number}/{index}"
        files.append({"sources": [f"{source}/f"], "destinations": [f"{dest}/{name}"], "activity": ACTIVITIES[index // 16 % 4]})
    return json.dumps({"files": files, "params": {"priority": 1 + number % 5, "retry": 3}}).encode()


class Service:
    """A service over a folder in memory whose one worker is kept in the read of a large file, so nothing else is claimed."""

    def __init__(self, program, preload):
        self.folder = pathlib.Path(tempfile.mkdtemp(dir="/dev/shm"))
        large = self.folder / "grid" / "https:,,s0.example" / "large"
        large.parent.mkdir(parents=True)
        with open(large, "wb") as file:
            file.truncate(1 << 32)
        (self.folder / "fts.toml").write_text(SETTINGS)
        with socket.create_server(("127.0.0.1", 0)) as server:
            self.port = server.getsockname()[1]
        words = [program, str(self.folder), "serve", "--port", str(self.port), "--lanes", "2"]
        self.process = subprocess.Popen(words, stdin=subprocess.DEVNULL, env=dict(os.environ, LD_PRELOAD=preload))

    def client(self):
        for _ in range(200):
            try:
                return Client(self.port)
            except OSError:
                time.sleep(0.02)
        raise SystemExit("it does not listen")

    def end(self):
        self.process.send_signal(signal.SIGKILL)
        self.process.wait()
        shutil.rmtree(self.folder)


def fill(client, jobs):
    """The ids of so many jobs, behind the one that keeps the worker."""
    held = json.dumps({"files": [{"sources": [f"{ENDPOINTS[0]}/large"], "destinations": [f"{ENDPOINTS[4]}/large"]}]}).encode()
    client.ask([request(b"POST", b"/jobs", held)])
    time.sleep(0.3)
    ids = []
    for number in range(jobs):
        ids += re.findall(rb'"job_id":"([^"]+)"', client.ask([request(b"POST", b"/jobs", job(number))]))
    return ids


def batches(ids, order):
    """The cancellations of an order, so many at a time. The first file of the first job is file 2, behind that of the worker's."""
    place, count = ORDERS[order]
    requests = []
    for turn in range(count(len(ids))):
        at = place(len(ids), turn)
        requests.append(request(b"DELETE", b"/jobs/%s/files/%d" % (ids[at // FILES], at + 2)))
    return [requests[first : first + BATCH] for first in range(0, len(requests), BATCH)]


def seconds(program, preload, order, jobs):
    """How long one cancellation of an order takes on a service on which so many jobs wait."""
    service = Service(program, preload)
    try:
        client = service.client()
        asked = batches(fill(client, jobs), order)
        begun = time.perf_counter()
        for batch in asked:
            client.ask(batch)
        return (time.perf_counter() - begun) / sum(len(batch) for batch in asked)
    finally:
        service.end()


def main():
    program = str(pathlib.Path(sys.argv[1]).resolve())
    rounds = int(sys.argv[2]) if len(sys.argv) > 2 else 3
    here = pathlib.Path(__file__).resolve().parent
    with tempfile.TemporaryDirectory() as work:
        preload = f"{work}/slow_reads.so"
        subprocess.run(["gcc", "-O2", "-shared", "-fPIC", "-o", preload, str(here / "slow_reads.c")], check=True)
        for order in ORDERS:
            least = dict.fromkeys(SIZES, float("inf"))
            for _ in range(rounds):
                for jobs in SIZES:
                    least[jobs] = min(least[jobs], seconds(program, preload, order, jobs))
            few, more, most = (least[jobs] * 1e6 for jobs in SIZES)
            print(f"{order}: {few:.2f}, {more:.2f}, {most:.2f} us at 2,000, 20,000, 199,800; ratio {most / few:.2f}", flush=True)


main()
