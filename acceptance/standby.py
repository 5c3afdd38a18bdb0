#!/usr/bin/env python3
"""A standby of a service, by the program as it was built: a primary under load is killed at a random moment, and the standby takes over. Each line says
what was tried and what came.

acceptance/standby.py PROGRAM [TIMES] [SEED]: PROGRAM is fts as it was built, TIMES is how often a primary is killed (50), and SEED that of the moments.
Four clients submit to a primary over a folder of its own, and `PROGRAM STANDBY follow` runs again and again. The primary is killed (SIGKILL), and a service
is started over the standby's folder. Wanted is that the standby's entries are the first ones of the primary's journal, byte for byte; that the new
service has each job of those entries and no other; and that the acknowledged jobs which it has not are those whose entries stand behind them. Where
never a job was behind, and where each time one was, nothing of this was tried, and the status is 1.

Then a primary goes on from what a standby has followed while another service has taken over there, and `follow` says that the two have diverged. Last a
journal is followed from its beginning: how long that takes beside what the primary took to append the same entries one after another.
"""
import pathlib
import random
import subprocess
import sys
import tempfile
import threading
import time

from serving import A, B, SETTINGS, Service, wrong_in
from serving import SOON

# seconds until a primary is killed, and between two runs of `follow`
UNTIL_KILL, PAUSE = (0.3, 1.2), 0.02
CLIENTS, ENTRIES = 4, 3000
# how often longer following may take than the appends that it repeats, each with a connection of its own
MOST_TIMES = 3
HEADER, GATE, SUBMITS = b"FTS3JRN1", 1, (0x02, 0x0B)


def entries_of(folder):
    """The entries of a journal, in order: the bodies behind a closed gate, each with its length in four bytes."""
    content, bodies, at = (folder / "fts.journal").read_bytes(), [], len(HEADER)
    assert content[:at] == HEADER
    while at < len(content) and content[at] == GATE:
        length = int.from_bytes(content[at + 1 : at + 5], "little")
        bodies.append(content[at + 5 : at + 5 + length])
        at += 5 + length
    return bodies


def kind_of(body):
    """The byte of an entry's command, behind its writer, a number of seven bits a byte."""
    at = next(place for place, byte in enumerate(body) if byte < 0x80)
    return body[at + 1]


def jobs_in(bodies):
    return sum(kind_of(body) in SUBMITS for body in bodies)


def id_of(number):
    return f"00000000-0000-4000-8000-{number:012x}"


def follow(program, folder, port, *words):
    """A run of `follow`: its status, its line and its note."""
    ended = subprocess.run([program, str(folder), "follow", "--port", str(port), *words], capture_output=True, timeout=120, stdin=subprocess.DEVNULL)
    return ended.returncode, ended.stdout.decode(), ended.stderr.decode()


def stand():
    folder = tempfile.TemporaryDirectory()
    (pathlib.Path(folder.name) / "fts.toml").write_text(SETTINGS)
    return folder, pathlib.Path(folder.name)


def submits(service, end, acknowledged):
    """Submits jobs of one file until the end, or until the service is gone."""
    while not end.is_set():
        try:
            acknowledged.append(service.submit("f1"))
        except Exception:
            return


def follows(program, folder, port, end, statuses):
    while not end.is_set():
        statuses.append(follow(program, folder, port, "--tries", "1")[0])
        time.sleep(PAUSE)


def killed(program, moment):
    """One primary and its standby: what came, how many acknowledged jobs the standby had not, and whether all was as wanted."""
    primary = Service(program)
    primary.source("f1", b"abc")
    kept, path = stand()
    end, acknowledged, statuses = threading.Event(), [], []
    threads = [threading.Thread(target=submits, args=(primary, end, acknowledged)) for _ in range(CLIENTS)]
    threads.append(threading.Thread(target=follows, args=(program, path, primary.port, end, statuses)))
    for thread in threads:
        thread.start()
    time.sleep(moment)
    primary.process.kill()
    primary.process.wait()
    end.set()
    for thread in threads:
        thread.join()
    whole, had = entries_of(primary.path), entries_of(path)
    is_front = whole[: len(had)] == had
    jobs = jobs_in(had)
    with kept:
        taken = Service(program, folder=str(path))
        found = [taken.ask("GET", f"/jobs/{id_of(number)}")[0] == 200 for number in range(1, jobs_in(whole) + 2)]
        taken.stop()
        primary.folder.cleanup()
    numbers = sorted(int(job[-12:], 16) for job in acknowledged)
    behind = [number for number in numbers if number > jobs]
    lost = [number for number in numbers if number <= jobs and not found[number - 1]]
    is_there = found == [True] * jobs + [False] * (len(found) - jobs)
    is_known = len(numbers) <= jobs_in(whole) and set(statuses) <= {0, 16, 17}
    return len(whole), len(had), len(behind), is_front and is_there and not lost and is_known


def kills(program, times, generator):
    runs = [killed(program, generator.uniform(*UNTIL_KILL)) for _ in range(times)]
    wrong = sum(not run[3] for run in runs)
    lacking = sum(run[2] > 0 for run in runs)
    entries, had, behind = (sum(run[place] for run in runs) for place in range(3))
    line = f"primaries killed: {times}, entries in all {entries}, of which standbys had {had}; runs with acknowledged jobs behind the standby's count: {lacking}, such jobs {behind}; otherwise than wanted: {wrong}"
    yield line, wrong == 0 and had > 0 and 0 < lacking


def diverges(program):
    """Both go on from what was followed."""
    primary = Service(program)
    primary.source("f1", b"abc")
    primary.settle(primary.submit("f1"))
    kept, path = stand()
    with kept:
        status, line, note = follow(program, path, primary.port)
        yield f"a standby of a service that rests: status {status}, {line.strip()}", status == 0 and line == f"caught up at {len(entries_of(primary.path))}\n"
        status, line, note = follow(program, path, primary.port)
        yield f"the same again: status {status}, {line.strip()}", status == 0 and entries_of(path) == entries_of(primary.path)
        count = len(entries_of(path))
        taken = Service(program, folder=str(path))
        taken.stop()
        primary.submit("f1")
        status, line, note = follow(program, path, primary.port)
        yield f"one that took over, and follows again: status {status}, {note.strip()}", status == 22 and note == f"fts: diverged at {count}\n"
        primary.stop()
        status, line, note = follow(program, path, primary.port, "--tries", "1")
        yield f"no service at the port: status {status}, {note.strip()}", status == 16 and note == "fts: link failed\n"
    primary.folder.cleanup()


def requests():
    document = f'{{"files":[{{"sources":["{A}/none"],"destinations":["{B}/none"]}}]}}'.encode()
    return b"POST /jobs HTTP/1.1\r\nContent-Length: %d\r\n\r\n%s" % (len(document), document)


def paces(program):
    """A primary's journal by a session, and the time that its standby takes for it."""
    made, path = stand()
    kept, other = stand()
    with made, kept:
        begun = time.monotonic()
        subprocess.run([program, str(path), "session"], input=requests() * (ENTRIES // 4), stdout=subprocess.DEVNULL, check=True)
        appended = time.monotonic() - begun
        primary = Service(program, folder=str(path))
        begun = time.monotonic()
        status, line, note = follow(program, other, primary.port)
        followed = time.monotonic() - begun
        primary.stop()
        count = len(entries_of(other))
        yield (
            f"{count} entries followed in {followed:.1f} s, and appended by a session in {appended:.1f} s: {followed / appended:.2f} times",
            status == 0 and count >= ENTRIES // 4 and followed < MOST_TIMES * appended + SOON,
        )


def main(words):
    program, times, seed = words[0], int(words[1]) if len(words) > 1 else 50, int(words[2]) if len(words) > 2 else random.randrange(1 << 32)
    print(f"the seed of the moments: {seed}")
    wrong = wrong_in(kills(program, times, random.Random(seed)))
    wrong += wrong_in(diverges(program))
    wrong += wrong_in(paces(program))
    print(f"otherwise than wanted {wrong}")
    return 1 if wrong else 0


if __name__ == "__main__":
    sys.exit(main(sys.argv[1:]))
