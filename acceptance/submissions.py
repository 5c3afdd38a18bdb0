#!/usr/bin/env python3
"""The commands `submit` and `query` of the program as it was built: against a service that is killed and started again, and against servers that answer
otherwise than the service does. Each line says what was tried and what came.

acceptance/submissions.py PROGRAM [long] [SEED]: PROGRAM is fts as it was built. 200 documents with ids of their own are submitted by `PROGRAM - submit`
to a service over a folder of its own, which is killed (SIGKILL) and started again on its port 20 times while commands run. Wanted is that each command
ends with status 0 and one id, and that in the end each document has one job, with that id: by its files' destination, and by the id that docs/API.md
makes of the VO's name and the document's `sid`. How many jobs stood in the journal of a killed service whose command had no answer is told too;
where there was none, nothing of this was tried, and the status is 1. Each sync of the service lasts 10 ms longer (bench/slow_syncs.c, by cc), so that
kills meet appends. The moments are of a generator with the seed.

The servers take one connection at a time on a port of their own and answer by a row, as in "From the command line" of docs/API.md. Wanted are status
and note, and that no more is taken of what a server sends than one response may have, with little memory. `long` adds servers that let a command wait.
"""
import contextlib
import json
import os
import pathlib
import random
import re
import resource
import signal
import socket
import struct
import subprocess
import sys
import tempfile
import threading
import time
import uuid

from serving import A, B, SETTINGS, Service, wrong_in

KILLS, EACH, TRIES = 20, 10, 10
# seconds in which the commands of a round begin, and the kill comes; which those have to end that were answered; in which the next start comes
BEGIN, KILL, ANSWERED, UNTIL_START = 0.15, 0.35, 0.5, 1.5
# microseconds that a sync lasts longer
SYNC = 10_000
SLOW_SYNCS = pathlib.Path(__file__).resolve().parent.parent / "bench" / "slow_syncs.c"
# seconds that one command may take
COMMAND = 150
# what a client may take of one response, and what sockets may hold besides, in bytes; its most memory in KiB
MOST_TAKEN, MOST_KIB = 8_389_632 + 16_384 + (16 << 20), 64 << 10
BASE = uuid.UUID("01874efb-4735-4595-bc9c-591aef8240c9")
JOB = "8b35c5cc-fec2-5479-8778-9cbe6f137978"


def document(sid, **params):
    params = {"id_generator": "deterministic", "sid": sid, **params}
    return json.dumps({"files": [{"sources": [f"{A}/none"], "destinations": [f"{B}/{sid}"]}], "params": params}).encode()


def command(program, *words, given=b"", output=subprocess.PIPE):
    """Runs a command to its end: its status, its output and its note."""
    process = subprocess.Popen([program, "-", *words], stdin=subprocess.PIPE, stdout=output, stderr=subprocess.PIPE)
    try:
        written, notes = process.communicate(given, COMMAND)
    except subprocess.TimeoutExpired:
        process.kill()
        process.communicate()
        return None, "", "not done in time"
    return process.returncode, (written or b"").decode(), notes.decode()


class Submission(threading.Thread):
    """A command that submits a document of its own, from a moment on."""

    def __init__(self, program, port, sid, begin):
        super().__init__(daemon=True)
        self.words, self.sid, self.begin, self.ended = (program, "submit", "--port", str(port), "--tries", str(TRIES)), sid, begin, None
        self.start()

    def run(self):
        time.sleep(self.begin)
        self.ended = command(*self.words, given=document(self.sid))


def made_unanswered(service, submissions):
    """How many jobs a killed service's journal has whose commands have not ended."""
    shown = subprocess.run([service.program, str(service.path), "show"], stdin=subprocess.DEVNULL, capture_output=True, text=True).stdout
    dests = set(re.findall(rf"^file .* {B}/(\S+)$", shown, re.M))
    return sum(1 for it in submissions if it.ended is None and it.sid in dests)


def kill_around(service, source, number, prefix):
    """A round: commands begin, the service is killed among them and started again. The commands, and how many of them had made their jobs unanswered."""
    begins = [source.uniform(0, BEGIN) for _ in range(EACH)]
    submissions = [Submission(service.program, service.port, f"s{number}-{place}", begin) for place, begin in enumerate(begins)]
    time.sleep(source.uniform(0, KILL))
    service.stop(signal.SIGKILL)
    time.sleep(ANSWERED)
    unanswered = made_unanswered(service, submissions)
    time.sleep(source.uniform(0, UNTIL_START))
    service.start(prefix, service.port)
    for it in submissions:
        it.join()
    return submissions, unanswered


def jobs_by_sid(service):
    """The ids of the jobs of each document, by its file's destination."""
    found = {}
    status, jobs = service.ask("GET", "/jobs?limit=1000")
    assert status == 200, jobs
    for job in jobs:
        for file in service.ask("GET", f"/jobs/{job['job_id']}/files")[1]:
            found.setdefault(file["dest_surl"].removeprefix(f"{B}/"), []).append(job["job_id"])
    return found


def id_of(sid, vo="demo"):
    return str(uuid.uuid5(uuid.uuid5(BASE, vo), sid))


def slow_syncs(service):
    """What stands before a service's words so that its syncs last longer."""
    library = service.path / "slow_syncs.so"
    subprocess.run(["cc", "-O2", "-shared", "-fPIC", "-o", library, SLOW_SYNCS], check=True)
    return "env", f"LD_PRELOAD={library}", f"SLOW_SYNC_US={SYNC}"


def acts_once(program, seed):
    source, service = random.Random(seed), Service(program)
    prefix = slow_syncs(service)
    service.stop(signal.SIGKILL)
    service.start(prefix, service.port)
    rounds = [kill_around(service, source, number, prefix) for number in range(KILLS)]
    submissions = [it for those, _ in rounds for it in those]
    unanswered = sum(count for _, count in rounds)
    done = sum(1 for it in submissions if it.ended == (0, id_of(it.sid) + "\n", ""))
    yield f"{len(submissions)} submissions through {KILLS} kills: {done} ended with status 0 and their id", done == len(submissions)
    for it in submissions:
        if it.ended != (0, id_of(it.sid) + "\n", ""):
            yield f"  {it.sid}: {it.ended}", False
    found = jobs_by_sid(service)
    once = sum(1 for it in submissions if found.get(it.sid) == [id_of(it.sid)])
    yield f"jobs in the end: {sum(map(len, found.values()))}, of documents with one job: {once}", once == len(submissions) == len(found)
    yield f"jobs that were made by a try whose command had no answer when the service was killed: {unanswered}", unanswered > 0
    again = command(program, "submit", "--port", str(service.port), given=document(submissions[0].sid))
    yield f"a document that has its job, once more: {again}", again == (0, id_of(submissions[0].sid) + "\n", "")
    yield from queries(program, service, id_of(submissions[0].sid))
    service.stop()


def queries(program, service, job):
    words = ("query", "--port", str(service.port), "--job")
    status, output, notes = command(program, *words, job)
    shown = json.loads(output) if output.endswith("}\n") else None
    yield f"a query of it: status {status}, {shown}", (status, notes) == (0, "") and shown == service.ask("GET", f"/jobs/{job}")[1]
    ended = command(program, *words, "00000000-0000-4000-8000-00000000ffff")
    yield f"a query of a job that is not there: {ended}", ended == (15, "", "fts: service refused with 404\n")
    ended = command(program, *words, "no-id")
    yield f"a query of what is no id: {ended}", ended == (2, "", "fts: not a command\n")


# ---- servers that answer otherwise


class Server:
    """A server of one answer, on a free port: how many connections came, what was asked on the last one, and how much it could send."""

    def __init__(self, answer):
        self.answer, self.asked, self.sent, self.count = answer, b"", 0, 0
        self.listener = socket.create_server(("127.0.0.1", 0))
        self.port = self.listener.getsockname()[1]
        threading.Thread(target=self.serve, daemon=True).start()

    def serve(self):
        with contextlib.suppress(OSError):
            while True:
                client, _ = self.listener.accept()
                self.count, self.sent = self.count + 1, 0
                with client, contextlib.suppress(OSError):
                    self.asked = request_from(client)
                    self.answer(self, client)

    def send(self, client, data):
        """Sends, and counts what the system took."""
        view = memoryview(data)
        while view:
            count = client.send(view)
            self.sent, view = self.sent + count, view[count:]

    def close(self):
        self.listener.shutdown(socket.SHUT_RDWR)
        self.listener.close()


def request_from(client):
    asked = b""
    while b"\r\n\r\n" not in asked:
        piece = client.recv(65_536)
        if not piece:
            return asked
        asked += piece
    length = re.search(rb"\r\nContent-Length: (\d+)\r\n", asked)
    end = asked.index(b"\r\n\r\n") + 4 + (int(length[1]) if length else 0)
    while len(asked) < end:
        asked += client.recv(65_536)
    return asked


def says(data):
    return lambda server, client: server.send(client, data)


def says_without_end(front, piece):
    """The front, and then the piece again and again until the client is gone."""

    def answer(server, client):
        server.send(client, front)
        while server.sent < MOST_TAKEN * 4:
            server.send(client, piece)

    return answer


def resets(server, client):
    client.setsockopt(socket.SOL_SOCKET, socket.SO_LINGER, struct.pack("ii", 1, 0))


def is_silent(server, client):
    client.recv(1)


def drips(server, client):
    for byte in response(200, ID_BODY):
        server.send(client, bytes([byte]))
        time.sleep(1)


PHRASES = {200: "OK", 400: "Bad Request", 404: "Not Found", 409: "Conflict", 500: "Internal Server Error", 503: "Service Unavailable", 507: "Insufficient Storage"}
ID_BODY = b'{"job_id":"%s"}' % JOB.encode()


def response(status, body, *lines):
    lines = (f"HTTP/1.1 {status} {PHRASES[status]}", "Content-Type: application/json", *(lines or (f"Content-Length: {len(body)}", "Connection: close")))
    return "".join(line + "\r\n" for line in lines).encode() + b"\r\n" + body


DONE, NO_ANSWER, BY_LINK = (0, JOB + "\n", ""), (17, "", "fts: no whole answer\n"), (16, "", "fts: link failed\n")


def refused(status):
    return 15, "", f"fts: service refused with {status}\n"


def cannot_serve(status):
    return 18, "", f"fts: service cannot serve: {status}\n"


# a sentence, an answer, and how one try of a submission ends by it
ANSWERS = (
    ("a job is made", says(response(200, ID_BODY)), DONE),
    ("a job is there", says(response(409, ID_BODY)), DONE),
    ("bytes behind the body", says(response(200, ID_BODY) + b"HTTP/1.1 400 Bad Request\r\n\r\n"), DONE),
    ("bytes without end behind the body", says_without_end(response(200, ID_BODY), b"x" * 65_536), DONE),
    ("a refusal", says(response(400, b'{"message":"no files","rule":3,"status":400}')), refused(400)),
    ("a refusal whose body is none of the service's", says(response(507, b"full")), refused(507)),
    ("a failed disk", says(response(503, b'{"message":"disk failed","rule":35,"status":503}')), cannot_serve(503)),
    ("no memory", says(response(500, b"")), cannot_serve(500)),
    ("no id", says(response(200, b"{}")), NO_ANSWER),
    ("an id that is none", says(response(200, b'{"job_id":"8b35c5cc"}')), NO_ANSWER),
    ("no length", says(response(200, ID_BODY, "Connection: close")), NO_ANSWER),
    ("a length past the limit", says(response(200, ID_BODY, "Content-Length: 8389633")), NO_ANSWER),
    ("a body past the limit, and sent", says_without_end(response(200, b"", "Content-Length: 8389633"), b" " * 65_536), NO_ANSWER),
    ("a length of twenty digits", says(response(200, ID_BODY, "Content-Length: 18446744073709551665")), NO_ANSWER),
    ("a body that ends early", says(response(200, ID_BODY, "Content-Length: 49")[:-1]), NO_ANSWER),
    ("a head that ends early", says(b"HTTP/1.1 200 OK\r\nCon"), NO_ANSWER),
    ("no byte", says(b""), NO_ANSWER),
    ("two lengths", says(response(200, ID_BODY, "Content-Length: 49", "Content-Length: 49")), NO_ANSWER),
    ("a status line of 16 KiB", says(b"HTTP/1.1 200 " + b"O" * 16_384 + b"\r\n\r\n"), NO_ANSWER),
    ("a status line without end", says_without_end(b"HTTP/1.1 200 ", b"O" * 65_536), NO_ANSWER),
    ("fields without end", says_without_end(b"HTTP/1.1 200 OK\r\n", b"X: y\r\n" * 8_192), NO_ANSWER),
    ("zeros without end", says_without_end(b"", b"\0" * 65_536), NO_ANSWER),
    ("a proxy's fields", says(response(200, ID_BODY, "Server: x", "Content-Length: 49")), NO_ANSWER),
    ("another version", says(response(200, ID_BODY).replace(b"HTTP/1.1", b"HTTP/1.0")), NO_ANSWER),
    ("chunks", says(b"HTTP/1.1 200 OK\r\nTransfer-Encoding: chunked\r\n\r\n0\r\n\r\n"), NO_ANSWER),
    ("a reset in place of an answer", resets, BY_LINK),
)
WAITS = (("silence", is_silent, BY_LINK, 9, 13), ("a byte a second", drips, BY_LINK, 59, 64))


def tried(program, answer, *words, given=b""):
    """How a command ends by an answer; the server; the seconds that it took; its most memory is told by those of all children."""
    server, begun = Server(answer), time.monotonic()
    ended = command(program, words[0], "--port", str(server.port), *words[1:], given=given)
    took = time.monotonic() - begun
    server.close()
    return ended, server, took


def answers(program):
    body = document("f1")
    for name, answer, wanted in ANSWERS:
        ended, server, _ = tried(program, answer, "submit", "--tries", "1", given=body)
        head = f"POST /jobs HTTP/1.1\r\nHost: 127.0.0.1:{server.port}\r\nContent-Length: {len(body)}\r\nConnection: close\r\n\r\n".encode()
        is_wanted = ended == wanted and server.asked == head + body and server.count == 1 and server.sent <= MOST_TAKEN
        yield f"{name}: {ended}, {server.sent} bytes were sent", is_wanted
    most = resource.getrusage(resource.RUSAGE_CHILDREN).ru_maxrss
    yield f"most memory of a command or a service so far: {most} KiB", most <= MOST_KIB


def waits(program):
    for name, answer, wanted, least, most in WAITS:
        ended, _, took = tried(program, answer, "submit", "--tries", "1", given=document("f1"))
        yield f"{name}: {ended} after {took:.1f} s", ended == wanted and least <= took <= most


def again(program):
    """Tries of one command: the same bytes again, behind a second and behind two more."""
    asked, given = [], [b"", response(503, b""), response(409, ID_BODY)]

    def answer(server, client):
        asked.append(server.asked)
        server.send(client, given[len(asked) - 1])

    ended, _, took = tried(program, answer, "submit", given=document("f1"))
    is_same = len(asked) == 3 and len(set(asked)) == 1
    yield f"no byte, a failed disk, and then the job: {ended} after {took:.1f} s, the same request: {is_same}", ended == DONE and is_same and 2.9 <= took < 6
    begun = time.monotonic()
    with socket.create_server(("127.0.0.1", 0)) as taken:
        port = taken.getsockname()[1]
    ended = command(program, "submit", "--port", str(port), "--tries", "2", given=document("f1"))
    took = time.monotonic() - begun
    yield f"nobody listens, two tries: {ended} after {took:.1f} s", ended == BY_LINK and 0.9 <= took < 3
    shown = b'{"job_state":"ACTIVE"}'
    ended, server, _ = tried(program, says(response(200, shown)), "query", "--job", JOB)
    head = f"GET /jobs/{JOB} HTTP/1.1\r\nHost: 127.0.0.1:{server.port}\r\nConnection: close\r\n\r\n".encode()
    yield f"a query: {ended}", ended == (0, shown.decode() + "\n", "") and server.asked == head


def unsent(program):
    """Documents that are not sent, an output that can't be written, and words that are no command."""
    rows = (
        ("no document", b"", (19, "", "fts: document rule 1\n")),
        ("a document without a sid", document("f1").replace(b'"sid"', b'"other"'), (19, "", "fts: document rule 24\n")),
        ("an id that the service makes", document("f1", id_generator="standard"), (19, "", "fts: document rule 24\n")),
        ("a document of 1,048,577 bytes", document("f1").ljust(1_048_577), (19, "", "fts: document rule 45\n")),
    )
    for name, given, wanted in rows:
        ended, server, _ = tried(program, says(response(200, ID_BODY)), "submit", given=given)
        yield f"{name}: {ended}, connections {server.count}", ended == wanted and server.count == 0
    longest = document("f1").ljust(1_048_576)
    ended, server, _ = tried(program, says(response(200, ID_BODY)), "submit", given=longest)
    yield f"a document of 1,048,576 bytes: {ended}", ended == DONE and server.asked.endswith(longest)
    server = Server(says(response(200, ID_BODY)))
    with open("/dev/full", "wb") as full:
        ended = command(program, "submit", "--port", str(server.port), given=document("f1"), output=full)
    server.close()
    yield f"an output that is full: {ended}", ended == (6, "", "fts: output failed\n")
    for words in (("submit",), ("submit", "--port", "1", "--tries", "0"), ("submit", "--port", "1", "--tries", "11"), ("query", "--port", "1")):
        ended = command(program, *words)
        yield f"{' '.join(words)}: {ended}", ended == (2, "", "fts: not a command\n")


def main(words):
    if not words:
        sys.exit(__doc__)
    program, is_long = str(pathlib.Path(words[0]).resolve()), "long" in words[1:]
    seeds = [word for word in words[1:] if word != "long"]
    rows = (answers, again, unsent, *([waits] if is_long else []))
    wrong = sum(wrong_in(row(program)) for row in rows)
    wrong += wrong_in(acts_once(program, int(seeds[0]) if seeds else 1))
    print(f"otherwise than wanted {wrong}")
    return 1 if wrong else 0


if __name__ == "__main__":
    sys.exit(main(sys.argv[1:]))
