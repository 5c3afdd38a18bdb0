#!/usr/bin/env python3
"""Each kind of job over a folder of its own, by the program as it was built: what GET says of the rows, and the files byte for byte.

acceptance/folders.py PROGRAM [SEED]: PROGRAM is fts as it was built. Contents are of a generator with this seed. A kind is one session with the
submission, and one with a look at its files. The last kinds have more sessions: a retry whose moment has not come and has, and an end by a signal
within a copy. Wanted of each are the states and reasons beside it in `KINDS`, which are those of docs/API.md. Status 1 where one is otherwise.
"""
import hashlib
import json
import pathlib
import random
import re
import signal
import subprocess
import sys
import tempfile
import time

A, B, C = "https://a.example", "https://b.example", "https://c.example"
JOB = "/jobs/00000000-0000-4000-8000-000000000001"
SETTINGS = 'vo = "demo"\n' + "".join(f'[[storage]]\nurl = "{url}"\n' for url in (A, B, C))
SIZES = (0, 1, 4095, 65536, 65537, 1 << 20, 5 << 20)
REPLY = re.compile(rb"HTTP/1.1 (\d+) [^\r]*\r\n(?:[^\r]+\r\n)*?Content-Length: (\d+)\r\n(?:[^\r]+\r\n)*\r\n")


class Stand:
    """A folder with settings and sources, and the sessions over it."""

    def __init__(self, program, seed):
        self.program, self.random, self.folder = program, random.Random(seed), tempfile.TemporaryDirectory()
        self.path = pathlib.Path(self.folder.name)
        (self.path / "fts.toml").write_text(SETTINGS)

    def at(self, surl):
        scheme, host, path = re.fullmatch(r"(\w+)://([^/]+)/(.*)", surl).groups()
        return self.path / "grid" / f"{scheme}:,,{host}" / path

    def source(self, surl, size):
        content = self.random.randbytes(size)
        self.at(surl).parent.mkdir(parents=True, exist_ok=True)
        self.at(surl).write_bytes(content)
        return content

    def session(self, *requests, prefix=()):
        sent = b"".join(f"{line} HTTP/1.1\r\nContent-Length: {len(body)}\r\n\r\n{body}".encode() for line, body in requests)
        run = subprocess.run([*prefix, self.program, self.path, "session"], input=sent, capture_output=True)
        replies, rest = [], run.stdout
        while rest:
            head = REPLY.match(rest)
            end = head.end() + int(head[2])
            replies.append((int(head[1]), json.loads(rest[head.end() : end])))
            rest = rest[end:]
        return run.returncode, replies

    def submit(self, document):
        status, replies = self.session(("POST /jobs", json.dumps(document)))
        assert status == 0 and [code for code, _ in replies] == [200], (status, replies)

    def look(self):
        """The state of the job, and the rows, as the next run answers them before it copies anything."""
        status, replies = self.session((f"GET {JOB}", ""), (f"GET {JOB}/files", ""))
        assert status == 0 and [code for code, _ in replies] == [200, 200], (status, replies)
        return replies[0][1]["job_state"], replies[1][1]


def document(pairs, files=None, **params):
    return {"files": [{"sources": sources, "destinations": [dest], **(files or {})} for sources, dest in pairs], "params": params}


def told(stand, contents):
    """The states, the reasons, and whether each destination holds just these bytes; None where there is to be nothing. No part is left."""
    job, rows = stand.look()
    states = ", ".join(row["file_state"] + (f" ({row['reason']})" if row["reason"] else "") for row in rows)
    for surl, content in contents.items():
        there = stand.at(surl).read_bytes() if stand.at(surl).is_file() else None
        assert there == content, surl
    left = [part for endpoint in (A, B, C) for part in stand.at(f"{endpoint}/.fts").glob("part-*")]
    assert not left, left
    for row in rows:
        if row["file_state"] == "FINISHED":
            copied = contents[row["dest_surl"]]
            assert (row["filesize"], row["digest"]) == (len(copied), hashlib.md5(copied).hexdigest()), row
    return f"{job}: {states}"


def plain(stand):
    contents = {f"{B}/f{n}": stand.source(f"{A}/f{n}", size) for n, size in enumerate(SIZES)}
    stand.submit(document([([f"{A}/f{n}"], f"{B}/f{n}") for n in range(len(SIZES))]))
    return told(stand, contents)


def replicas(stand):
    content = stand.source(f"{A}/second", 70000)
    stand.submit(document([([f"{A}/none", f"{A}/second", f"{C}/third"], f"{B}/f")], {"selection_strategy": "orderly"}))
    return told(stand, {f"{B}/f": content})


def three_hops(stand):
    content = stand.source(f"{A}/f", 70000)
    stand.submit(document([([f"{A}/f"], f"{B}/f"), ([f"{B}/f"], f"{C}/f"), ([f"{C}/f"], f"{A}/back")], multihop=True))
    return told(stand, {f"{B}/f": content, f"{C}/f": content, f"{A}/back": content})


def checksum(stand):
    content = stand.source(f"{A}/f", 70000)
    stand.submit(document([([f"{A}/f"], f"{B}/f")], {"checksum": "MD5:" + hashlib.md5(content).hexdigest()}, verify_checksum=True))
    return told(stand, {f"{B}/f": content})


def wrong_checksum(stand):
    content = stand.source(f"{A}/f", 70000)
    stand.submit(document([([f"{A}/f"], f"{B}/f")], {"checksum": "MD5:" + 32 * "0"}, verify_checksum=True, retry=3))
    return told(stand, {f"{B}/f": None}).replace(hashlib.md5(content).hexdigest(), "of its bytes")


def empty(stand):
    stand.source(f"{A}/f", 0)
    stand.submit(document([([f"{A}/f"], f"{B}/f")], {"checksum": "MD5:" + hashlib.md5(b"").hexdigest()}, verify_checksum=True))
    return told(stand, {f"{B}/f": b""})


def overwrite_off(stand):
    stand.source(f"{A}/f", 70000)
    kept = stand.source(f"{B}/f", 10)
    stand.submit(document([([f"{A}/f"], f"{B}/f")]))
    return told(stand, {f"{B}/f": kept})


def overwrite_on(stand):
    content = stand.source(f"{A}/f", 70000)
    stand.source(f"{B}/f", 10)
    stand.submit(document([([f"{A}/f"], f"{B}/f")], overwrite=True))
    return told(stand, {f"{B}/f": content})


def retry_with_delay(stand):
    """The source is a folder at first, which is a failed call. Between the sessions it becomes a file."""
    stand.at(f"{A}/f").mkdir(parents=True)
    stand.submit(document([([f"{A}/f"], f"{B}/f")], retry=1, retry_delay=4))
    waits = told(stand, {f"{B}/f": None})
    stand.at(f"{A}/f").rmdir()
    content = stand.source(f"{A}/f", 70000)
    time.sleep(5)
    stand.session()
    end = told(stand, {f"{B}/f": content})
    assert stand.look()[1][0]["attempt"] == 2
    return f"{waits}, and behind its moment {end}, attempt 2"


def ended_within_a_copy(stand):
    content = stand.source(f"{A}/f", 64 << 20)
    body = json.dumps(document([([f"{A}/f"], f"{B}/f")]))
    run = subprocess.Popen([stand.program, stand.path, "session"], stdin=subprocess.PIPE, stdout=subprocess.PIPE)
    run.stdin.write(f"POST /jobs HTTP/1.1\r\nContent-Length: {len(body)}\r\n\r\n{body}".encode())
    run.stdin.close()
    part = stand.at(f"{B}/.fts/part-1")
    while not (part.is_file() and part.stat().st_size > 1 << 20):
        assert run.poll() is None, "the run ended first"
        time.sleep(0.001)
    run.send_signal(signal.SIGKILL)
    run.wait()
    assert not stand.at(f"{B}/f").exists()
    stand.session()
    end = told(stand, {f"{B}/f": content})
    assert stand.look()[1][0]["attempt"] == 2
    return f"{end}, attempt 2"


FINISHED = "FINISHED: FINISHED"
KINDS = {
    "plain, seven files of 0 to 5 MiB": (plain, FINISHED + ", FINISHED" * 6),
    "replicas, the first missing": (replicas, "FINISHED: FAILED (source missing), FINISHED, NOT_USED"),
    "three hops": (three_hops, FINISHED + ", FINISHED, FINISHED"),
    "a wanted checksum": (checksum, FINISHED),
    "another checksum than the wanted one": (wrong_checksum, "FAILED: FAILED (source digest of its bytes)"),
    "an empty file": (empty, FINISHED),
    "a destination that is there, without overwrite": (overwrite_off, "FAILED: FAILED (destination exists)"),
    "a destination that is there, with overwrite": (overwrite_on, FINISHED),
    "a retry after 4 seconds": (retry_with_delay, f"SUBMITTED: SUBMITTED (store failed), and behind its moment {FINISHED}, attempt 2"),
    "a run that is killed within a copy, and the next one": (ended_within_a_copy, f"{FINISHED}, attempt 2"),
}


def is_as_wanted(kind, stand):
    play, wanted = KINDS[kind]
    try:
        found = play(stand)
    except AssertionError as error:
        found = f"not so: {error}"
    print(f"{kind}: {found}" + ("" if found == wanted else f"; wanted: {wanted}"), flush=True)
    return found == wanted


def main():
    program = pathlib.Path(sys.argv[1]).resolve()
    seed = int(sys.argv[2]) if len(sys.argv) > 2 else 1
    wrong = sum(1 for kind in KINDS if not is_as_wanted(kind, Stand(program, seed)))
    print(f"kinds {len(KINDS)}, otherwise than wanted {wrong}")
    return 1 if wrong else 0


if __name__ == "__main__":
    sys.exit(main())
