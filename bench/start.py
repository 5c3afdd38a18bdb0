#!/usr/bin/env python3
"""What a start over a full journal takes: time, and the most memory, beside a session that makes the same tables.

Usage: start.py PROGRAM [JOBS]

PROGRAM is `crates/fts/out/fts`. JOBS is 1 to 1,000, of 200 files each; 1,000 is the default, whose journal of 200,000 rows is about half of what submissions may fill.
Two folders are made below the system's one for temporary files. In the first this script writes the journal itself, by the format in
docs/FORMATS.md: a Restart, and for each job its submission and its cancellation. In the second the program makes it, from one connection with
the same submissions and cancellations; a file of each job may be under way when its job is cancelled, and finds no source. Nothing is copied in
either. It prints the seconds, the processor's seconds and the greatest resident size of the start, which has no input, and of the session, the size
in MiB, and how many lines `show` writes of each folder. Run it with nothing else running.

`start.py PROGRAM JOBS FILE` writes the journal to this file besides, for `benches keep file FILE`, and measures nothing.

The system counts to a program's greatest size that of the process that it was started from, as that one was then. So what is large here is made by
a process of its own, and programs are started from one that stays at some 10 MiB.
"""

import os
import subprocess
import sys
import tempfile
import time

FILES = 200
SETTINGS = 'vo = "demo"\nworkers = 1\n[[storage]]\nurl = "https://a.example"\n[[storage]]\nurl = "https://b.example"\n'
SOURCE, DEST = "https://a.example", "https://b.example"
NOW = 1_700_000_000


def number(value: int) -> bytes:
    """A number as unsigned LEB128."""
    out = bytearray()
    while value >= 128:
        out.append(value & 127 | 128)
        value >>= 7
    out.append(value)
    return bytes(out)


def text(value: str) -> bytes:
    return number(len(value)) + value.encode()


def path(kind: str, job: int, file: int) -> str:
    """A path of 140 bytes."""
    return f"{kind}/{job:06}-{file:03}-".ljust(140, kind)


def framed(body: bytes) -> bytes:
    return b"\x01" + len(body).to_bytes(4, "little") + body


def entry(kind: int, fields: bytes) -> bytes:
    return framed(number(0) + bytes([kind]) + number(NOW) + fields)


def restart() -> bytes:
    endpoints = b"".join(text(name) + number(20) + number(20) for name in (SOURCE, DEST))
    return entry(1, text("demo") + number(1) + number(2) + number(2) + endpoints + number(0) + number(1) + text("default") + number(1))


def submit(job: int) -> bytes:
    files = b"".join(
        number(index) + text(SOURCE) + text(path("s", job, index)) + text(DEST) + text(path("d", job, index)) + number(0) + b"\x00" + text("default")
        for index in range(FILES)
    )
    return entry(2, b"\x00\x00\x00" + number(3) + number(0) + number(0) + b"\x00" + number(FILES) + files)


def journal(jobs: int) -> bytes:
    parts = [b"FTS3JRN1", restart()]
    for job in range(1, jobs + 1):
        parts += [submit(job), entry(3, number(job))]
    return b"".join(parts) + b"\x00"


def requests(jobs: int) -> bytes:
    parts = []
    for job in range(1, jobs + 1):
        files = ",".join(
            f'{{"sources":["{SOURCE}/{path("s", job, index)}"],"destinations":["{DEST}/{path("d", job, index)}"]}}' for index in range(FILES)
        )
        body = f'{{"files":[{files}]}}'
        parts.append(f"POST /jobs HTTP/1.1\r\nContent-Length: {len(body)}\r\n\r\n{body}")
        parts.append(f"DELETE /jobs/00000000-0000-4000-8000-{job:012x} HTTP/1.1\r\n\r\n")
    return "".join(parts).encode()


def folder(root: str, name: str) -> str:
    place = os.path.join(root, name)
    os.makedirs(os.path.join(place, "grid"))
    with open(os.path.join(place, "fts.toml"), "w") as file:
        file.write(SETTINGS)
    return place


def apart(work, *given) -> None:
    """Does this work in a process of its own, whose memory goes with it."""
    child = os.fork()
    if child == 0:
        work(*given)
        os._exit(0)
    if os.waitpid(child, 0)[1] != 0:
        raise SystemExit("a file was not written")


def write(place: str, content, jobs: int) -> None:
    with open(place, "wb") as file:
        file.write(content(jobs))


def measured(program: str, place: str, given: str) -> tuple[int, float, float, float]:
    """The status of a session over this input, its seconds, those of the processor, and its greatest resident size in MiB."""
    with open(given, "rb") as source, open(os.devnull, "wb") as sink:
        begun = time.monotonic()
        child = subprocess.Popen([program, place, "session"], stdin=source, stdout=sink)
        _, status, usage = os.wait4(child.pid, 0)
        child.returncode = os.waitstatus_to_exitcode(status)
        return child.returncode, time.monotonic() - begun, usage.ru_utime + usage.ru_stime, usage.ru_maxrss / 1024


def lines(program: str, place: str) -> int:
    with subprocess.Popen([program, place, "show"], stdout=subprocess.PIPE) as shown:
        return sum(piece.count(b"\n") for piece in iter(lambda: shown.stdout.read(65536), b""))


def main() -> None:
    program = os.path.abspath(sys.argv[1])
    jobs = int(sys.argv[2]) if len(sys.argv) > 2 else 1000
    if len(sys.argv) > 3:
        write(sys.argv[3], journal, jobs)
        return
    with tempfile.TemporaryDirectory() as root:
        started, made = folder(root, "started"), folder(root, "made")
        kept = os.path.join(started, "fts.journal")
        given, nothing = os.path.join(root, "requests"), os.path.join(root, "nothing")
        apart(write, kept, journal, jobs)
        apart(write, given, requests, jobs)
        open(nothing, "wb").close()
        print(f"{jobs} jobs, {jobs * FILES} rows, a journal of {os.path.getsize(kept)} bytes")
        for name, place, source in (("start", started, nothing), ("session", made, given)):
            status, seconds, worked, size = measured(program, place, source)
            print(f"{name}: status {status}, {seconds:.2f} s, {worked:.2f} s of a processor, {size:.1f} MiB, {lines(program, place)} lines", flush=True)


if __name__ == "__main__":
    main()
