#!/usr/bin/env python3
"""Each allocation of a run refused in turn, one a run: what is answered, how the run ends, and what its journal and its files are behind it.

acceptance/refused.py PROGRAM [ROW [STEP]]: PROGRAM is fts as it was built. ROW is `job` (a session of three files), `workers` (a service over real
sockets with two workers and two files) or `load` (2,000 files by `load --number 7`); all of them where none is named. acceptance/refuse_memory.c is
built by cc and preloaded; it counts the calls that take memory, over all threads, and refuses one. Folders are made below /dev/shm.

`job` and `workers` refuse each call, from the first on, until runs refuse none. A load makes some 140,000 calls: each is known by the places in the
program that led to it, and refused are the first, the second, the middle and the last call of each kind, and every STEP-th of all (997).

Wanted of each run: it ends by itself, by no signal, with status 0 or 1, or, where a load's store had no memory for a file, 13, and, where a listener
had none, 9 without a reply; each reply is the one of a run that nothing is refused in, or 500; a file is FINISHED, with the bytes of its source, or it
is FAILED with `store failed`; the journal opens, and its jobs are those that were answered 200, where the run came so far. Then a run in which nothing
is refused ends with status 0, and settles every file. Printed is how many runs ended in each way, and each that is otherwise. A row of which no call
was refused is otherwise too: then the program's calls for memory do not come to refuse_memory.c.
"""
import collections
import json
import os
import pathlib
import re
import shutil
import socket
import subprocess
import sys
import tempfile
import time

A, B = "https://a.example", "https://b.example"
ROOT = "root://a.example:1094"
RESPONSE = re.compile(rb"HTTP/1\.1 (\d{3}) [^\r\n]*\r\n(?:[^\r\n]+\r\n)*?Content-Length: (\d+)\r\n(?:[^\r\n]+\r\n)*\r\n")
JOB = (
    '{"files":['
    + ",".join(
        f'{{"sources":["{ROOT}//data//f{k}"],"destinations":["https://b.example:443/store/f{k}"],"checksum":"ADLER32:0d5e1a2b","filesize":3,'
        '"metadata":null,"activity":null,"selection_strategy":null}'
        for k in (1, 2, 3)
    )
    + '],"params":{"verify_checksum":false,"reuse":false,"spacetoken":null,"bring_online":null,"copy_pin_lifetime":-1,"job_metadata":null,'
    '"overwrite":false,"multihop":false,"retry":-1,"retry_delay":0,"priority":3,"max_time_in_queue":null,"timeout":null,"id_generator":"standard","sid":null}}'
)
PAIR = json.dumps({"files": [{"sources": [f"{A}/data/f{k}"], "destinations": [f"{B}/store/f{k}"]} for k in (1, 2)]})
CALLS_WITHOUT = 3  # so many runs in a row that refuse nothing end a row


def settings(first, workers):
    return f'vo = "demo"\nworkers = {workers}\n[[storage]]\nurl = "{first}"\n[[storage]]\nurl = "{B}"\n'


def request(method, path, body=""):
    return f"{method} {path} HTTP/1.1\r\nContent-Length: {len(body)}\r\n\r\n{body}".encode()


def replies(output):
    """The status and the body of each whole response, and whether there is nothing else."""
    found, at = [], 0
    while at < len(output):
        response = RESPONSE.match(output, at)
        end = response.end() + int(response[2]) if response else len(output) + 1
        if end > len(output):
            return found, False
        found.append((int(response[1]), output[response.end() : end]))
        at = end
    return found, True


class Stand:
    """A folder, and the program over it."""

    def __init__(self, program, preload, text):
        self.program, self.preload = program, preload
        self.folder = pathlib.Path(tempfile.mkdtemp(dir="/dev/shm"))
        self.seen, self.sites = self.folder / "seen", self.folder / "sites"
        (self.folder / "fts.toml").write_text(text)

    def source(self, endpoint, path, content):
        place = self.folder / "grid" / endpoint.replace("/", ",") / path
        place.parent.mkdir(parents=True, exist_ok=True)
        place.write_bytes(content)

    def words(self, *words):
        return [self.program, str(self.folder), *words]

    def refusing(self, number):
        """What a run meets that refuses this call; none where it is 0, and the calls are told apart."""
        told = {"REFUSE_SITES": str(self.sites)} if number == 0 else {"REFUSE_AT": str(number), "REFUSE_SEEN": str(self.seen)}
        return {"LD_PRELOAD": self.preload, **told}

    def is_refused(self):
        return self.seen.exists() and self.seen.read_bytes() != b""

    def show(self):
        """The status of a look, the ids of the jobs, and the state, source and destination of each file."""
        looked = subprocess.run(self.words("show"), capture_output=True, timeout=60)
        lines = [line.split(" ") for line in looked.stdout.decode().splitlines()]
        jobs = [line[1] for line in lines if line[0] == "job"]
        return looked.returncode, jobs, [(line[3], line[4], line[5]) for line in lines if line[0] == "file"]

    def place(self, url):
        scheme, rest = url.split("://", 1)
        host, path = rest.split("/", 1)
        return self.folder / "grid" / f"{scheme}:,,{host}" / path

    def reasons(self, jobs):
        """Why files are FAILED, by a session in which nothing is refused; and its status."""
        asked = b"".join(request("GET", f"/jobs/{job}/files") for job in jobs)
        ran = subprocess.run(self.words("session"), input=asked, capture_output=True, timeout=60)
        found = [file for status, body in replies(ran.stdout)[0] if status == 200 for file in json.loads(body)]
        return ran.returncode, [file["reason"] for file in found if file["file_state"] == "FAILED"]

    def remove(self):
        shutil.rmtree(self.folder)


def faults_of(stand, status, accepted, statuses=(0, 1)):
    """What is otherwise than wanted of a run that ended with this status and was answered these ids, and what it left."""
    looked, jobs, files = stand.show()
    is_made = looked == 0
    faults = []
    if not is_made and not (looked == 7 and not accepted):
        faults.append(f"a look has status {looked}")
    if is_made and jobs != accepted:
        faults.append(f"jobs {jobs}, accepted {accepted}")
    states = collections.Counter(state for state, _, _ in files)
    faults += later_faults_of(stand, status, jobs, statuses)
    return faults, ", ".join(f"{count} {state}" for state, count in sorted(states.items())) or "no file"


def later_faults_of(stand, status, jobs, statuses):
    """What is otherwise than wanted of the status, of the next run, and of what that one leaves."""
    faults = [] if status in statuses else [f"status {status}"]
    next_status, reasons = stand.reasons(jobs)
    if next_status != 0:
        faults.append(f"the next run has status {next_status}")
    left = stand.show()[2]
    if any(state not in ("FINISHED", "FAILED") for state, _, _ in left):
        faults.append("a file is not settled")
    if any(stand.place(to).read_bytes() != stand.place(source).read_bytes() for state, source, to in left if state == "FINISHED"):
        faults.append("a finished file has other bytes than its source")
    # a copy that was in place and not reported yet when its run ended is found by the next one
    if any(reason not in ("store failed", "destination exists") for reason in reasons):
        faults.append(f"reasons {sorted(set(reasons))}")
    if status == 0 and "destination exists" in reasons:
        faults.append("a copy that was not reported")
    return faults


def told(found):
    return ", ".join(str(status) for status, _ in found) or "none"


def ids(found):
    return [json.loads(body)["job_id"] for status, body in found if status == 200 and body.startswith(b'{"job_id":') and b"job_state" not in body]


def session_job(program, preload, number):
    """A session that submits three files and looks at them."""
    stand = Stand(program, preload, settings(ROOT, 4))
    for k in (1, 2, 3):
        stand.source(ROOT, f"data/f{k}", b"abc")
    asked = request("POST", "/jobs", JOB) + request("GET", "/jobs/00000000-0000-4000-8000-000000000001/files")
    ran = subprocess.run(stand.words("session"), input=asked, capture_output=True, env=stand.refusing(number), timeout=60)
    found, is_whole = replies(ran.stdout)
    faults, left = faults_of(stand, ran.returncode, ids(found))
    wanted = {(): (1,), (200, 200): (0, 1), (500, 404): (0, 1), (200, 500): (0, 1)}
    statuses = tuple(status for status, _ in found)
    if not is_whole or ran.returncode not in wanted.get(statuses, ()):
        faults.append("other replies")
    return stand, f"status {ran.returncode}, replies {told(found)}: {left}", faults


def exchange(port, asked):
    """The responses to a request over a connection of its own; none where it is let go or not taken."""
    got = b""
    try:
        with socket.create_connection(("127.0.0.1", port), timeout=5) as client:
            client.sendall(asked)
            client.shutdown(socket.SHUT_WR)
            while piece := client.recv(65536):
                got += piece
    except OSError:
        pass
    return replies(got)[0]


def is_taken(port):
    with socket.socket() as client:
        return client.connect_ex(("127.0.0.1", port)) == 0


def listens(process, port):
    """Waits until the service listens or has ended, by the system's table of sockets: a connection would be one of those that it serves."""
    line = f"0100007F:{port:04X} 00000000:0000 0A"
    for _ in range(2000):
        if process.poll() is not None or line in pathlib.Path("/proc/net/tcp").read_text():
            return
        time.sleep(0.002)


def free_port():
    with socket.create_server(("127.0.0.1", 0)) as server:
        return server.getsockname()[1]


def served_workers(program, preload, number):
    """A service of two lanes and two workers: two files are submitted over one connection, and asked for over the next."""
    stand = Stand(program, preload, settings(A, 2))
    for k in (1, 2):
        stand.source(A, f"data/f{k}", b"abc" * 100_000)
    port = free_port()
    words = stand.words("serve", "--port", str(port), "--lanes", "2", "--connections", "1")
    process = subprocess.Popen(words, stdin=subprocess.DEVNULL, stderr=subprocess.PIPE, env=stand.refusing(number))
    listens(process, port)
    found = exchange(port, request("POST", "/jobs", PAIR)) + exchange(port, request("GET", "/jobs"))
    faults = []
    try:
        process.communicate(timeout=20)
    except subprocess.TimeoutExpired:
        process.kill()
        process.communicate()
        faults.append("it does not end")
    # what a listener lacks is a failure of the doors
    more, left = faults_of(stand, process.returncode, ids(found), (0, 1) if found else (0, 1, 9))
    statuses = tuple(status for status, _ in found)
    if statuses not in ((), (200,), (500,), (200, 200), (500, 200), (200, 500)):
        faults.append("other replies")
    return stand, f"status {process.returncode}, replies {told(found)}: {left}", faults + more


def load(program, preload, number):
    """A load of 2,000 files."""
    stand = Stand(program, preload, settings(A, 2))
    ran = subprocess.run(stand.words("load", "--number", "7"), capture_output=True, env=stand.refusing(number), timeout=120)
    jobs = [f"00000000-0000-4000-8000-{job:012x}" for job in range(1, 21)]
    faults = later_faults_of(stand, ran.returncode, jobs, (0, 1, 13))
    line = ran.stdout.decode()
    if (ran.returncode == 0) != bool(re.fullmatch(r"claims \d+ finished \d+ failed \d+ cancelled 0 waiting 0\n", line)):
        faults.append(f"output {line!r}")
    return stand, f"status {ran.returncode}, {line.strip() or 'no line'}", faults


ROWS = {"job": session_job, "workers": served_workers, "load": load}


def chosen(sites, step):
    """Numbers of calls: some of each kind, and every so-many-th."""
    kinds = collections.defaultdict(list)
    for number, site in enumerate(sites, 1):
        kinds[site].append(number)
    some = {calls[place] for calls in kinds.values() for place in (0, min(1, len(calls) - 1), len(calls) // 2, -1)}
    return sorted(some | set(range(step, len(sites), step))), len(kinds)


def numbers(sites, name, step):
    if name == "load":
        return chosen(sites, step)[0]
    return range(1, len(sites) + 10_000)


def try_row(program, preload, name, step):
    stand, ended, faults = ROWS[name](program, preload, 0)
    sites = stand.sites.read_text().split()
    stand.remove()
    print(f"{name}: {len(sites)} calls from {len(set(sites))} places; where none is refused: {ended} {faults or ''}", flush=True)
    ends, wrong, runs, without = collections.Counter(), 0, 0, 0
    for number in numbers(sites, name, step):
        stand, ended, faults = ROWS[name](program, preload, number)
        is_refused = stand.is_refused()
        stand.remove()
        without = 0 if is_refused else without + 1
        if without == CALLS_WITHOUT:
            break
        runs += is_refused
        ends[ended if is_refused else "the call did not come"] += 1
        if faults:
            wrong += 1
            print(f"  otherwise, call {number}: {ended}: {'; '.join(faults)}", flush=True)
    for ended, count in sorted(ends.items()):
        print(f"  {count:6} {ended}")
    print(f"{name}: {runs} runs with a refused call, otherwise than wanted {wrong}", flush=True)
    return wrong + (runs == 0)


def main(words):
    if len(words) not in (1, 2, 3) or (len(words) > 1 and words[1] not in ROWS):
        sys.exit(__doc__)
    with tempfile.TemporaryDirectory() as folder:
        preload = os.path.join(folder, "refuse_memory.so")
        given = pathlib.Path(__file__).with_name("refuse_memory.c")
        subprocess.run(["cc", "-O2", "-fno-omit-frame-pointer", "-shared", "-fPIC", "-o", preload, given, "-ldl"], check=True)
        step = int(words[2]) if len(words) > 2 else 997
        rows = words[1:2] or list(ROWS)
        wrong = sum(try_row(os.path.abspath(words[0]), preload, name, step) for name in rows)
    return 1 if wrong else 0


if __name__ == "__main__":
    sys.exit(main(sys.argv[1:]))
