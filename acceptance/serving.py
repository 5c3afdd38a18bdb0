#!/usr/bin/env python3
"""A service over real sockets, by the program as it was built: what clients and an operator meet. Each line says what was tried and what came.

acceptance/serving.py PROGRAM [BROKEN]: PROGRAM is fts as it was built. It serves folders of its own on free ports of 127.0.0.1. BROKEN is how many
connections break off one after another, each behind another byte (10000 where none is named). What is wanted stands in "Limits" of
docs/OPERATING.md; its times are given room here for a machine that is busy. A line that is otherwise says so, and then the status is 1.
"""
import http.client
import json
import os
import pathlib
import signal
import socket
import struct
import subprocess
import sys
import tempfile
import threading
import time

A, B = "https://a.example", "https://b.example"
SETTINGS = f'vo = "demo"\nworkers = 4\n[[storage]]\nurl = "{A}"\n[[storage]]\nurl = "{B}"\n'
SETTLED = ("FINISHED", "FAILED", "CANCELED")
# seconds from a submission to a small file, and behind silent clients, of which all but one give way after 1; percent of a processor of an idle service
SOON, BEHIND_SILENT, IDLE = 5, 4, 5
# seconds until a service that was started takes connections
LISTENS = 20


def free_port():
    with socket.create_server(("127.0.0.1", 0)) as server:
        return server.getsockname()[1]


def notes_in(errors):
    """What a run says of its end on its standard error, without the lines of its log."""
    return "".join(line for line in errors.decode().splitlines(keepends=True) if line.startswith("fts: "))


class Service:
    """A folder and the service over it. The folder is the system's choice where none is named."""

    def __init__(self, program, lanes=4, folder=None, settings=SETTINGS):
        self.program, self.lanes, self.folder = program, lanes, folder or tempfile.TemporaryDirectory()
        self.path = pathlib.Path(folder or self.folder.name)
        (self.path / "fts.toml").write_text(settings)
        self.start()

    def start(self, prefix=(), port=None):
        self.port = port or free_port()
        words = [*prefix, self.program, str(self.path), "serve", "--port", str(self.port), "--lanes", str(self.lanes)]
        self.process = subprocess.Popen(words, stdin=subprocess.DEVNULL, stderr=subprocess.PIPE)
        last = time.monotonic() + LISTENS
        while self.process.poll() is None and time.monotonic() < last:
            try:
                socket.create_connection(("127.0.0.1", self.port)).close()
                return
            except OSError:
                time.sleep(0.02)
        self.process.kill()
        raise SystemExit(f"it does not listen; status {self.process.wait()}")

    def stop(self, number=signal.SIGTERM):
        self.process.send_signal(number)
        self.process.wait()
        return self.process.returncode

    def source(self, name, content):
        place = self.path / "grid" / "https:,,a.example" / name
        place.parent.mkdir(parents=True, exist_ok=True)
        place.write_bytes(content)

    def copied(self, name):
        place = self.path / "grid" / "https:,,b.example" / name
        return place.read_bytes() if place.exists() else None

    def ask(self, method, path, body=None):
        connection = http.client.HTTPConnection("127.0.0.1", self.port, timeout=15)
        try:
            connection.request(method, path, body=body)
            answer = connection.getresponse()
            return answer.status, json.loads(answer.read())
        finally:
            connection.close()

    def submit(self, name, count=1):
        files = [{"sources": [f"{A}/{name}"], "destinations": [f"{B}/{name}.{place}"]} for place in range(count)]
        status, answer = self.ask("POST", "/jobs", json.dumps({"files": files}).encode())
        assert status == 200, answer
        return answer["job_id"]

    def settle(self, job):
        for _ in range(2000):
            files = self.ask("GET", f"/jobs/{job}/files")[1]
            states = [file["file_state"] for file in files]
            if all(state in SETTLED for state in states):
                return states
            time.sleep(0.01)
        return states

    def processor_seconds(self):
        fields = pathlib.Path(f"/proc/{self.process.pid}/stat").read_text().rsplit(")", 1)[1].split()
        return (int(fields[11]) + int(fields[12])) / os.sysconf("SC_CLK_TCK")

    def open_files(self):
        return len(os.listdir(f"/proc/{self.process.pid}/fd"))


def copies(service):
    content = os.urandom(3_000_001)
    service.source("f1", content)
    states = service.settle(service.submit("f1"))
    is_same = service.copied("f1.0") == content
    yield f"a file of 3,000,001 bytes: {states}, the same bytes: {is_same}", states == ["FINISHED"] and is_same
    service.source("f2", b"abc")
    begun = time.monotonic()
    states = service.settle(service.submit("f2"))
    took = time.monotonic() - begun
    yield f"a small file: {states}, {took:.2f} s from the submission to FINISHED", states == ["FINISHED"] and took < SOON


def cancels(service):
    """A copy that was done when the cancellation came is FINISHED, and its destination stays."""
    service.source("big", os.urandom(64 << 20))
    job = service.submit("big", 4)
    time.sleep(0.25)
    status, answer = service.ask("DELETE", f"/jobs/{job}")
    states = service.settle(job)
    left = sum(service.copied(f"big.{place}") is not None for place in range(4))
    is_wanted = status == 200 and "CANCELED" in states and set(states) <= {"CANCELED", "FINISHED"} and left == states.count("FINISHED")
    yield f"a cancellation while copies run: {status}, then {sorted(set(states))}, destinations left: {left}", is_wanted


def resets(service):
    for _ in range(200):
        client = socket.create_connection(("127.0.0.1", service.port))
        client.setsockopt(socket.SOL_SOCKET, socket.SO_LINGER, struct.pack("ii", 1, 0))
        client.sendall(b"GET /jobs HTTP/1.1\r\n")
        client.close()
    status = service.ask("GET", "/jobs")[0]
    yield f"200 clients that reset: then GET /jobs is answered {status}", status == 200


def crowds(service):
    answers = []

    def one():
        try:
            answers.append(service.ask("GET", "/jobs")[0])
        except OSError as error:
            answers.append(type(error).__name__)

    threads = [threading.Thread(target=one) for _ in range(1000)]
    for thread in threads:
        thread.start()
    for thread in threads:
        thread.join()
    counts = {answer: answers.count(answer) for answer in answers}
    yield f"1,000 connections at once: {counts}", counts == {200: 1000}


def waits(service):
    silent = [socket.create_connection(("127.0.0.1", service.port)) for _ in range(service.lanes)]
    silent[0].sendall(b"G")
    time.sleep(0.1)
    begun = time.monotonic()
    status = service.ask("GET", "/jobs")[0]
    took = time.monotonic() - begun
    for client in silent:
        client.close()
    yield f"silent clients on all lanes: a GET behind them is answered {status} after {took:.1f} s", status == 200 and took < BEHIND_SILENT


def idles(service):
    before = service.processor_seconds()
    time.sleep(5)
    percent = 100 * (service.processor_seconds() - before) / 5
    yield f"idle for 5 s: {percent:.2f} percent of a processor", percent < IDLE


def shares_no_port(service):
    with tempfile.TemporaryDirectory() as folder:
        (pathlib.Path(folder) / "fts.toml").write_text(SETTINGS)
        words = [service.program, folder, "serve", "--port", str(service.port)]
        ended = subprocess.run(words, stdin=subprocess.DEVNULL, capture_output=True)
    notes = notes_in(ended.stderr).strip()
    yield f"a port in use: status {ended.returncode}, {notes!r}", (ended.returncode, notes) == (9, "fts: doors failed")


def shares_no_journal(service):
    ended = subprocess.run([service.program, str(service.path), "session"], stdin=subprocess.DEVNULL, capture_output=True)
    notes = ended.stderr.decode().strip()
    yield f"a second service on the folder: status {ended.returncode}, {notes!r}", (ended.returncode, notes) == (4, "fts: disk failed")


def keeps_to_its_journal(service):
    """The journal is moved away, another one stands in its place, and it is put back."""
    journal, away = service.path / "fts.journal", service.path / "away"

    def submits():
        body = json.dumps({"files": [{"sources": [f"{A}/none"], "destinations": [f"{B}/none"]}]}).encode()
        return service.ask("POST", "/jobs", body)[0]

    before = submits()
    journal.rename(away)
    moved = submits()
    journal.write_bytes(away.read_bytes())
    replaced = submits()
    away.rename(journal)
    back = submits()
    told = f"a submission {before}, where the journal is moved away {moved}, where a copy has its name {replaced}, where it is back {back}"
    yield told, (before, moved, replaced, back) == (200, 503, 503, 200)


def starts_again(service):
    service.source("f3", os.urandom(48 << 20))
    job = service.submit("f3", 4)
    time.sleep(0.3)
    code = service.stop()
    service.start()
    states = service.settle(job)
    is_wanted = code == -signal.SIGTERM and states == ["FINISHED"] * 4
    yield f"SIGTERM while copies run: ended by signal {-code}; after the next start: {states}", is_wanted


def breaks_off(service, count):
    body = json.dumps({"files": [{"sources": [f"{A}/f2"], "destinations": [f"{B}/never"]}]}).encode()
    request = b"POST /jobs HTTP/1.1\r\nHost: fts\r\nContent-Length: %d\r\n\r\n" % len(body) + body
    before = service.open_files()
    for place in range(count):
        with socket.create_connection(("127.0.0.1", service.port)) as client:
            client.sendall(request[: place % len(request)])
    time.sleep(0.5)
    states = service.settle(service.submit("f2"))
    jobs = len(service.ask("GET", "/jobs")[1])
    time.sleep(6)  # longer than the end of a connection is waited for
    behind = service.open_files()
    told = f"{count} connections that break off, each behind another byte: then a submission is {states}, "
    told += f"open files {before} before and {behind} behind, jobs {jobs}"
    yield told, (states, behind, jobs) == (["FINISHED"], before, 1)


def wrong_in(tries):
    """Prints what was tried and what came; how many are otherwise than wanted."""
    wrong = 0
    for told, is_wanted in tries:
        print(told + ("" if is_wanted else "; OTHERWISE than wanted"), flush=True)
        wrong += not is_wanted
    return wrong


def main(words):
    if len(words) not in (1, 2):
        sys.exit(__doc__)
    # behind `&` of a shell it is ignored, and would be by the services
    signal.signal(signal.SIGINT, signal.default_int_handler)
    service = Service(words[0])
    tries = (copies, cancels, resets, crowds, waits, idles, shares_no_port, shares_no_journal, keeps_to_its_journal, starts_again)
    wrong = sum(wrong_in(tried(service)) for tried in tries)
    service.stop()
    service = Service(words[0])
    service.source("f2", b"abc")
    wrong += wrong_in(breaks_off(service, int(words[1]) if len(words) == 2 else 10_000))
    service.stop(signal.SIGINT)
    print(f"otherwise than wanted {wrong}")
    return 1 if wrong else 0


if __name__ == "__main__":
    sys.exit(main(sys.argv[1:]))
