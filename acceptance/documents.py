#!/usr/bin/env python3
"""Long documents beside small requests, and a service without threads, by the program as it was built: each line says what was tried and what came.

acceptance/documents.py PROGRAM: PROGRAM is fts as it was built. It serves folders of its own on free ports of 127.0.0.1. A client sends documents of
nearly a MiB that break a rule, one after the other, and another asks for a job. Wanted: that one's middle answer at most doubles (and what is shorter
than half a millisecond anyway is good), since a document is read before the turn of its request. Where no thread can be made (`prlimit --nproc`, as
nobody where the script runs as root), `serve` ends with status 1 and says why.
"""
import json
import multiprocessing
import os
import shutil
import statistics
import subprocess
import sys
import tempfile
import time

from serving import A, B, Service, free_port, wrong_in

# bytes of a long document, how many GETs are measured, and milliseconds that are good in any case
LONG, GETS, GOOD = 1_000_000, 400, 0.5
SETTINGS = f'vo = "demo"\nworkers = 2\n[[storage]]\nurl = "{A}"\n[[storage]]\nurl = "{B}"\n'


def long_documents():
    """Two documents that are refused: for a rule of their shape, and for a parameter behind many URLs."""
    files = [{"sources": [f"{A}/{number:04}/{place:02}{'x' * 230}" for place in range(16)], "destinations": [f"{B}/{number:04}"]} for number in range(200)]
    odd = {"files": [], "params": {"x": ["y" * 20] * (LONG // 24)}}
    return {"nothing to copy": json.dumps(odd).encode(), "3,200 URLs": json.dumps({"files": files, "params": {"priority": 9}}).encode()}


def middle(service, job):
    """The middle of the milliseconds that a GET of a job takes."""
    times = []
    for _ in range(GETS):
        begun = time.perf_counter()
        status, _ = service.ask("GET", f"/jobs/{job}")
        times.append((time.perf_counter() - begun) * 1000)
        assert status == 200
    return statistics.median(times)


def sends(service, document, end, sent):
    while not end.is_set():
        status, _ = service.ask("POST", "/jobs", document)
        sent.append(status)


def beside(service, job, document):
    """The middle GET while another client sends a document again and again, and what that one was answered. It is a process of its own, so that this
    one's clock does not wait for it."""
    with multiprocessing.Manager() as manager:
        end, sent = manager.Event(), manager.list()
        client = multiprocessing.Process(target=sends, args=(service, document, end, sent))
        client.start()
        while not sent:
            time.sleep(0.01)
        try:
            taken = middle(service, job)
        finally:
            end.set()
            client.join()
        return taken, list(sent)


def long_ones(program):
    service = Service(program, settings=SETTINGS)
    try:
        service.source("f", b"abc")
        job = service.submit("f")
        service.settle(job)
        alone = middle(service, job)
        for name, document in long_documents().items():
            taken, sent = beside(service, job, document)
            good = taken <= max(2 * alone, GOOD) and set(sent) == {400}
            yield f"GETs beside documents with {name}, of {len(document):,} bytes: middle {alone:.2f} ms alone, {taken:.2f} ms beside {len(sent)}", good
    finally:
        service.stop()


def as_nobody(words):
    return ["setpriv", "--reuid=65534", "--regid=65534", "--clear-groups", *words] if os.geteuid() == 0 else words


def without_threads(program):
    """A service that may make no thread."""
    with tempfile.TemporaryDirectory() as folder:
        os.chmod(folder, 0o777)
        copy = shutil.copy(program, f"{folder}/fts")
        os.chmod(copy, 0o755)
        os.mkdir(f"{folder}/stand")
        os.chmod(f"{folder}/stand", 0o777)
        with open(f"{folder}/stand/fts.toml", "w") as settings:
            settings.write(SETTINGS)
        words = as_nobody(["prlimit", "--nproc=1", copy, f"{folder}/stand", "serve", "--port", str(free_port())])
        ended = subprocess.run(words, stdin=subprocess.DEVNULL, capture_output=True, timeout=60)
        made = os.path.exists(f"{folder}/stand/fts.journal")
        good = ended.returncode == 1 and ended.stderr == b"fts: no thread can be made\n" and not made
        yield f"serve where no thread can be made: status {ended.returncode}, {ended.stderr.decode()!r}, journal made: {made}", good


def main():
    if len(sys.argv) != 2:
        print(__doc__, file=sys.stderr)
        return 2
    program = os.path.abspath(sys.argv[1])
    return wrong_in(line for tried in (long_ones(program), without_threads(program)) for line in tried)


if __name__ == "__main__":
    sys.exit(main())
