#!/usr/bin/env python3
"""A service on a device that fails for a while, whose clients submit jobs of very different sizes: each one that was acknowledged has to be there after
the next mount.

acceptance/failing-service.py PROGRAM [RUNS [SEED]]: PROGRAM is fts as it was built; so many runs (5 where none is named) with a device that fails for
0.3 s, and as many with one that fails for 0.5 s, from its first answer of 503 on. Root only, since it mounts (`failing_device.py`). Three clients submit
copies of small files, so that entries are short, and one submits jobs of 100 files with long URLs, so that a MiB of zeros is passed soon: the failure
meets appends, the zeros that are written ahead, and the files. The moment at which it begins is of a generator with the seed.
Behind it come a second in which all go on, the end of the service, an unmount, the dropping of all pages, a mount, the tables of `show`, and a start.
A run whose device ends full, or whose file system makes itself read-only, doesn't count, nor does one without a 503. Status 1 where a job is missing,
where `show` doesn't end with 0 or the next start does not answer, and where no run of one kind counts: then nothing was tried.
"""
import http.client
import json
import os
import pathlib
import random
import signal
import subprocess
import sys
import threading
import time

from failing_device import Device, shell
from serving import A, B, SETTINGS, Service

SHORT, LONG = "x" * 150, "n/" * 200
# so many seconds the device fails
TIMES = (0.3, 0.5)


class Clients:
    """Clients that submit until they are ended, each on a connection of its own; what was acknowledged, and how often 503 came."""

    def __init__(self, port):
        self.port, self.jobs, self.refused, self.is_ended = port, [], 0, threading.Event()
        words = [(number, 1, SHORT) for number in range(3)] + [(3, 100, LONG)]
        self.threads = [threading.Thread(target=self.submit, args=it, daemon=True) for it in words]
        for thread in self.threads:
            thread.start()

    def submit(self, number, files, path):
        connection, count = http.client.HTTPConnection("127.0.0.1", self.port, timeout=60), 0
        while not self.is_ended.is_set():
            count += 1
            pairs = [(f"{A}/{path}{count % 6}", f"{B}/{path}-{number}-{count}-{file}") for file in range(files)]
            body = json.dumps({"files": [{"sources": [source], "destinations": [dest]} for source, dest in pairs]})
            connection.request("POST", "/jobs", body)
            answer = connection.getresponse()
            text = json.loads(answer.read())
            if answer.status == 200:
                self.jobs.append(text["job_id"])
            else:
                self.refused += answer.status == 503
            time.sleep(0.01 if files > 1 else 0 if answer.status == 200 else 0.005)

    def end(self):
        self.is_ended.set()
        for thread in self.threads:
            thread.join(60)


def meet_trouble(device, clients, begin, seconds):
    time.sleep(begin)
    device.begin_trouble()
    last = time.monotonic() + 3
    while not clients.refused and time.monotonic() < last:
        time.sleep(0.002)
    time.sleep(seconds)
    device.end_trouble()
    time.sleep(1)
    clients.end()


def answer_of_start(program, device):
    """The status of a look, where a service starts on what is there, and else what it ended with."""
    try:
        service = Service(program, folder=device.mount)
    except SystemExit as error:
        return str(error)
    try:
        return service.ask("GET", "/jobs?limit=1")[0]
    finally:
        service.stop()


def run(program, chance, seconds):
    """Whether a run counts, and whether all is as wanted."""
    with Device("fails") as device:
        sources = pathlib.Path(device.mount) / "grid" / "https:,,a.example"
        sources.mkdir(parents=True)
        for number in range(6):
            (sources / f"{SHORT}{number}").write_bytes(chance.randbytes(3000 * number))
        service = Service(program, folder=device.mount, settings=SETTINGS.replace("workers = 4", f"workers = {chance.choice((1, 4))}"))
        # sources and settings are not what is tried
        shell(f"sync -f {device.mount}")
        try:
            clients = Clients(service.port)
            meet_trouble(device, clients, chance.uniform(0.2, 1), seconds)
        finally:
            service.stop(signal.SIGTERM)
        counts = device.is_up() and clients.refused > 0
        device.mount_again()
        shown = subprocess.run([program, device.mount, "show"], capture_output=True, text=True)
        found = {line.split(" ")[1] for line in shown.stdout.splitlines() if line.startswith("job ")}
        started = answer_of_start(program, device)
    missing = sum(job not in found for job in clients.jobs)
    is_well = not (missing or shown.returncode) and started == 200
    print(f"failed for {seconds} s: acknowledged {len(clients.jobs)}, 503 {clients.refused}, show {shown.returncode}, missing {missing}, "
          f"next start: {started}{'' if counts else ' (full, read-only or no 503: not counted)'}"
          f"{'' if is_well or not counts else '; OTHERWISE than wanted'}", flush=True)
    return counts, is_well


def main():
    program = os.path.realpath(sys.argv[1])
    runs = int(sys.argv[2]) if len(sys.argv) > 2 else 5
    chance = random.Random(int(sys.argv[3]) if len(sys.argv) > 3 else 7)
    came = {seconds: [well for counts, well in (run(program, chance, seconds) for _ in range(runs)) if counts] for seconds in TIMES}
    wrong = sum(it.count(False) for it in came.values())
    print(f"runs that count {sum(map(len, came.values()))} of {len(TIMES) * runs}, otherwise than wanted {wrong}")
    return 1 if wrong or not all(came.values()) else 0


if __name__ == "__main__":
    sys.exit(main())
