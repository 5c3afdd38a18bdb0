#!/usr/bin/env python3
"""The log of a service, by the program as it was built: which lines it writes, that each is whole whatever a name holds, and that it holds nothing up.

acceptance/logs.py PROGRAM: PROGRAM is fts as it was built. Lines are read by a reader of this script's own, after "The log" in docs/OPERATING.md.
"""
import json
import os
import pathlib
import re
import subprocess
import sys
import tempfile
import time

from serving import A, B, LISTENS, SETTINGS, SETTLED, free_port
from sockets import ask

FIELD = re.compile(r'([a-z]+)=("(?:[^"\\]|\\.)*"|[^ "]+)(?: |$)')
ESCAPE = re.compile(r"\\(x[0-9a-f]{2}|.)")
# more than a pipe holds, by far
MANY = 1000


def fields(line):
    """The fields of a line, which has nothing else."""
    found, at = {}, 0
    while at < len(line):
        field = FIELD.match(line, at)
        assert field, f"no field at {at} of {line}"
        name, value = field.groups()
        if value.startswith('"'):
            value = ESCAPE.sub(lambda it: chr(int(it[1][1:], 16)) if len(it[1]) == 3 else it[1], value[1:-1])
        found[name], at = value, field.end()
    return found


def lines(place):
    text = place.read_bytes().decode("utf-8")
    assert text.endswith("\n"), text[-200:]
    return [fields(line) for line in text[:-1].split("\n")]


class Stand:
    """A folder, and the service over it at a socket, whose log goes where the words say."""

    def __init__(self, program, folder):
        self.program, self.path, self.socket = program, folder, folder / "fts.sock"
        folder.mkdir()
        (folder / "fts.toml").write_text(SETTINGS)

    def start(self, *words, stderr):
        self.socket.unlink(missing_ok=True)
        command = [self.program, str(self.path), "serve", "--socket", str(self.socket), *words]
        self.process = subprocess.Popen(command, stdin=subprocess.DEVNULL, stderr=stderr)
        last = time.monotonic() + LISTENS
        while self.process.poll() is None and time.monotonic() < last:
            try:
                return ask(self.socket, "GET", "/jobs")[0] == 200
            except OSError:
                time.sleep(0.02)
        return False

    def source(self, name, content):
        place = self.path / "grid" / "https:,,a.example" / name
        place.parent.mkdir(parents=True, exist_ok=True)
        place.write_bytes(content)

    def submit(self, pairs, **params):
        files = [{"sources": [f"{A}/{source}"], "destinations": [f"{B}/{dest}"]} for source, dest in pairs]
        status, answer = ask(self.socket, "POST", "/jobs", json.dumps({"files": files, "params": params}).encode())
        assert status == 200, answer
        return answer["job_id"]

    def settle(self, job):
        for _ in range(3000):
            states = [file["file_state"] for file in ask(self.socket, "GET", f"/jobs/{job}/files")[1]]
            if all(state in SETTLED for state in states):
                return states
            time.sleep(0.02)
        return states

    def stop(self):
        (self.path / "fts.stop").touch()
        return self.process.wait(60)


def tells(program, folder):
    stand, log = Stand(program, folder / 'a "b"\nevent=ends c\\d'), folder / "tells.log"
    stand.source("f", b"abc")
    (stand.path / "grid" / "https:,,a.example" / "folder").mkdir()
    os.mkfifo(stand.path / "grid" / "https:,,a.example" / "pipe")
    stand.start("--log", str(log), stderr=subprocess.DEVNULL)
    pairs = [("f", "f"), ("nothing", "y"), ("f", "f/below"), ("folder", "z"), ("pipe", "z")]
    jobs = [stand.submit([pairs[0]])]
    states = [stand.settle(jobs[0])]
    jobs += [stand.submit([pair]) for pair in pairs[1:]]
    states += [stand.settle(job) for job in jobs[1:]]
    yield f"files: {states}", states == [["FINISHED"], ["FAILED"], ["FAILED"], ["FAILED"], ["FAILED"]]
    yield f"a stop: status {stand.stop()}", stand.process.returncode == 23
    told = lines(log)
    yield f"the first line: {told[0]}", told[0]["event"] == "listens" and told[0]["at"] == str(stand.socket)
    yield f"the last line: {told[-1]}", (told[-1]["event"], told[-1]["status"], told[-1]["lost"]) == ("ends", "23", "0")
    copies = {line["job"]: line for line in told if line["event"] == "copy"}
    outcomes = ["verified", "source missing", "store failed", "store failed", "store failed"]
    for job, (source, dest), outcome in zip(jobs, pairs, outcomes):
        size = "3" if outcome == "verified" else "0"
        line = copies.get(job, {})
        seen = tuple(line.get(name) for name in ("source", "dest", "bytes", "outcome", "attempt"))
        yield f"the copy's line: {seen}", seen == (f"{A}/{source}", f"{B}/{dest}", size, outcome, "1") and line["millis"].isdigit() and line["file"].isdigit()
    yield f"{len(copies)} lines of copies", len(copies) == len(pairs)
    calls = [line for line in told if line["event"] == "call"]
    yield f"calls that were refused: {[(line['call'], line['error']) for line in calls]}", len(calls) >= 1 and all(line["path"].startswith(f"{stand.path}/grid/") and line["error"] == "ENOTDIR" for line in calls)
    found = {line["path"].rsplit("/", 1)[1]: line["error"] for line in told if line["event"] == "found"}
    yield f"what is no plain file: {found}", found == {"folder": "Is a directory", "pipe": "not a plain file"}
    yield "moments do not fall", [line["time"] for line in told] == sorted(line["time"] for line in told)


def goes_behind(program, folder):
    stand, log = Stand(program, folder / "behind"), folder / "behind.log"
    log.write_text("time=0 event=before\n")
    stand.start(f"--log={log}", stderr=subprocess.DEVNULL)
    stand.stop()
    yield f"it writes behind what stands there: {[line['event'] for line in lines(log)]}", [line["event"] for line in lines(log)] == ["before", "listens", "ends"]
    ended = subprocess.run([program, str(stand.path), "serve", "--port", str(free_port()), "--log", str(folder)], capture_output=True, timeout=LISTENS)
    yield f"a log that can't be opened: status {ended.returncode}, {ended.stderr}", (ended.returncode, ended.stderr) == (1, b"fts: the log cannot be opened\n")


def holds_nothing_up(program, folder):
    """Nobody reads the pipe that its standard error is; then what stands in it is read."""
    stand = Stand(program, folder / "unread")
    for place in range(200):
        stand.source(f"s{place}", b"abc")
    stand.start(stderr=subprocess.PIPE)
    begun = time.monotonic()
    jobs = [stand.submit([(f"s{place}", f"d{turn}.{place}") for place in range(200)]) for turn in range(MANY // 200)]
    done = sum(stand.settle(job).count("FINISHED") for job in jobs)
    yield f"{done} of {MANY} files copied in {time.monotonic() - begun:.1f} s beside a pipe that nobody reads", done == MANY
    (stand.path / "fts.stop").touch()
    time.sleep(2)
    yield f"it ends with status {stand.process.poll()}", stand.process.returncode == 23
    text = stand.process.stderr.read().decode()
    whole = [fields(line) for line in text.split("\n") if line and not line.startswith("fts: ")]
    yield f"{len(whole)} whole lines were in it", 100 < len(whole) < MANY


def survives_a_full_device(program, folder):
    stand = Stand(program, folder / "full")
    stand.source("f", b"abc")
    stand.start("--log", "/dev/full", stderr=subprocess.DEVNULL)
    states = stand.settle(stand.submit([("f", "f")]))
    yield f"with a log on a full device: {states}, a stop: status {stand.stop()}", states == ["FINISHED"] and stand.process.returncode == 23
    reader, writer = os.pipe()
    os.close(reader)
    stand.start(stderr=writer)
    os.close(writer)
    states = stand.settle(stand.submit([("f", "g")]))
    yield f"with a standard error that nobody can read: {states}, a stop: status {stand.stop()}", states == ["FINISHED"] and stand.process.returncode == 23


def main(words):
    program, wrong = str(pathlib.Path(words[0]).resolve()), 0
    with tempfile.TemporaryDirectory() as name:
        folder = pathlib.Path(name)
        for part in (tells, goes_behind, holds_nothing_up, survives_a_full_device):
            for text, is_wanted in part(program, folder):
                wrong += not is_wanted
                print(text if is_wanted else f"{text}: otherwise than wanted", flush=True)
    return 1 if wrong else 0


if __name__ == "__main__":
    sys.exit(main(sys.argv[1:]))
