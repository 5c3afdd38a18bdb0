#!/usr/bin/env python3
"""What a service makes of a grid that others change while it copies, and what it leaves there, by the program as it was built.

acceptance/grid.py PROGRAM [SEED]: PROGRAM is fts as it was built. Contents are of a generator with this seed. A kind is a service, or two, over a folder
of its own. Where something is to happen in the middle of a copy the service is stopped (SIGSTOP) and goes on behind it. Wanted are the states and
files beside each kind in `KINDS`, which are those of docs/OPERATING.md. Status 1 where one is otherwise. Needs Linux: it looks
into /proc.
"""
import fcntl
import json
import os
import pathlib
import random
import re
import signal
import sys
import time

from serving import A, B, SETTINGS, SETTLED, Service

BIG, SOME, FEW = 64 << 20, 1 << 20, 48


def until(holds, seconds, step=0.001):
    """Waits until it holds, and gives what it gave; fails behind so many seconds."""
    last = time.monotonic() + seconds
    while time.monotonic() < last:
        if found := holds():
            return found
        time.sleep(step)
    raise AssertionError(f"not so within {seconds} s")


def counted(told):
    return ", ".join(f"{told.count(it)} {it}" for it in sorted(set(told)))


class Stand(Service):
    """A service that is stopped in the middle of a copy and goes on, for `with`."""

    def __init__(self, program, chance, workers=1):
        super().__init__(program, settings=SETTINGS.replace("workers = 4", f"workers = {workers}\ndefault_max_active = {workers}"))
        self.chance = chance

    def __enter__(self):
        return self

    def __exit__(self, *_):
        for number in (signal.SIGCONT, signal.SIGKILL):
            self.process.send_signal(number)
        self.process.wait()

    def at(self, url, path=""):
        return self.path / "grid" / url.replace("/", ",") / path

    def put(self, url, path, size):
        content = self.chance.randbytes(size)
        self.at(url, path).parent.mkdir(parents=True, exist_ok=True)
        self.at(url, path).write_bytes(content)
        return content

    def send_all(self, pairs, file=None, **params):
        """Submits copies of files of the first endpoint to the second one."""
        files = [{"sources": [f"{A}/{source}"], "destinations": [f"{B}/{dest}"], **(file or {})} for source, dest in pairs]
        status, answer = self.ask("POST", "/jobs", json.dumps({"files": files, "params": params}))
        assert status == 200, answer
        return answer["job_id"]

    def send(self, source, dest, file=None, **params):
        return self.send_all([(source, dest)], file, **params)

    def rows(self, job):
        return self.ask("GET", f"/jobs/{job}/files")[1]

    def settled(self, job):
        rows = self.rows(job)
        return rows if all(row["file_state"] in SETTLED for row in rows) else None

    def row(self, job):
        return self.rows(job)[0]

    def told_all(self, job):
        """The states of a job's files once they are settled, and their reasons but for the digests in them."""
        rows = until(lambda: self.settled(job), 60, 0.02)
        reasons = [re.sub(" [0-9a-f]{32}$", "", row["reason"]) for row in rows]
        return [row["file_state"] + (f" ({reason})" if reason else "") for row, reason in zip(rows, reasons)]

    def told(self, job):
        return self.told_all(job)[0]

    def part(self, number):
        return self.at(B, f".fts/part-{number}")

    def copies(self, number):
        """Waits until a part has some bytes."""
        until(lambda: self.part(number).is_file() and self.part(number).stat().st_size > SOME, 30)

    def stop_in_copy(self, number):
        self.copies(number)
        self.process.send_signal(signal.SIGSTOP)
        time.sleep(0.05)
        assert self.part(number).stat().st_size < BIG, "the copy was done first"

    def go_on(self):
        self.process.send_signal(signal.SIGCONT)

    def open_below_grid(self):
        handles = pathlib.Path(f"/proc/{self.process.pid}/fd")
        links = [os.readlink(handles / name) for name in os.listdir(handles)]
        return sum(link.startswith(f"{os.path.realpath(self.path)}/grid/") for link in links)

    def kept(self):
        """What lies beside parts, and of parts those with bytes."""
        return sorted(it.name for it in self.at(B, ".fts").iterdir() if it.stat().st_size or not it.name.startswith("part-"))


def two_services(first, second):
    """The second service meets the part that the first one writes, and would have it by its name alone."""
    (second.path / "grid").symlink_to(first.path / "grid")
    contents = {name: first.put(A, name, BIG) for name in ("one", "two")}
    early = first.send("one", "one")
    first.stop_in_copy(1)
    own = first.part(1).stat().st_ino
    late = second.send("two", "two", retry=10, retry_delay=1)

    def met():
        is_other = first.part(1).is_file() and first.part(1).stat().st_ino != own and first.part(1).stat().st_size > SOME
        return second.row(late)["reason"] or is_other

    if until(met, 30, 0.02) is True:
        second.process.send_signal(signal.SIGSTOP)
    first.go_on()
    told = [first.told(early)]
    second.go_on()
    told.append(second.told(late))
    same = sum(first.at(B, name).is_file() and first.at(B, name).read_bytes() == content for name, content in contents.items())
    return f"{', '.join(told)}; equal to their sources: {same}"


def renamed_onto(stand, **params):
    """Another file gets the part's name while the part is written."""
    content, there = stand.put(A, "x", BIG), stand.put(B, "y", 10) if params.get("overwrite") else None
    job = stand.send("x", "y", **params)
    stand.stop_in_copy(1)
    (stand.path / "other").write_bytes(b"other")
    (stand.path / "other").rename(stand.part(1))
    stand.go_on()
    told = stand.told(job)
    found = stand.at(B, "y").read_bytes() if stand.at(B, "y").is_file() else None
    what = {content: "the source's bytes", there: "what was there", None: "nothing"}.get(found, "other bytes")
    return f"{told}, attempt {stand.row(job)['attempt']}; at the destination {what}"


def moved_away(stand, is_older=False):
    """The folder of an endpoint is moved away under a service that has looked at it, at its start where the folder is older, and put back."""
    stand.put(A, "x", 1000)
    stand.put(B, "there", 10)
    if is_older:
        stand.stop()
        stand.start()
    told = [stand.told(stand.send("x", "first"))]
    stand.at(B).rename(stand.path / "away")
    told += [stand.told(stand.send("x", f"second{number}")) for number in range(8)]
    is_made = stand.at(B).exists()
    if not is_made:
        (stand.path / "away").rename(stand.at(B))
        told.append(stand.told(stand.send("x", "third")))
    return f"{counted(told)}; made anew: {is_made}"


def ends(stand):
    """A copy that has another digest than the wanted one, one that is cancelled, and one that a killed service leaves and that is cancelled then."""
    stand.put(A, "x", BIG)
    told = [stand.told(stand.send("x", "1", {"checksum": "MD5:" + 32 * "0"}, verify_checksum=True))]
    job = stand.send("x", "2")
    stand.copies(2)
    stand.ask("DELETE", f"/jobs/{job}")
    told.append(stand.told(job))
    job = stand.send("x", "3")
    stand.copies(3)
    stand.stop(signal.SIGKILL)
    stand.start()
    stand.ask("DELETE", f"/jobs/{job}")
    told.append(stand.told(job))
    time.sleep(0.5)
    return f"{', '.join(told)}; left {stand.kept()}, open below the grid {stand.open_below_grid()}"


def parts_of_before(stand):
    """A start finds parts of copies that nobody makes any more, one that is held, and files with other names."""
    stand.put(A, "x", 1000)
    told = stand.told(stand.send("x", "y"))
    stand.stop(signal.SIGKILL)
    for name in ("part-1", "part-77", "part-200001", "part-x", "note"):
        stand.put(B, f".fts/{name}", 10)
    with open(stand.at(B, ".fts/part-9"), "wb") as held:
        held.write(b"held")
        held.flush()
        fcntl.flock(held, fcntl.LOCK_EX)
        stand.start()
        time.sleep(0.5)
        return f"{told}; left {', '.join(stand.kept())}"


def modes(stand):
    """Destinations with other modes than new files have are replaced; and one is made."""
    stand.put(A, "x", 1000)
    wanted = {"a": 0o600, "b": 0o640, "c": 0o755, "d": 0o444}
    for name, mode in wanted.items():
        stand.put(B, name, 10)
        stand.at(B, name).chmod(mode)
    told = {stand.told(stand.send("x", name, overwrite=True)) for name in (*wanted, "new")}
    return f"{', '.join(told)}; modes {', '.join(f'{stand.at(B, name).stat().st_mode & 0o7777:03o}' for name in (*wanted, 'new'))}"


def few_handles(stand):
    """Beside those of an idle service, and of a connection for each lane, there is one handle for each of 16 workers, who want two each, and one more."""
    for number in range(FEW):
        stand.put(A, f"x{number}", 4 * SOME)
    idle = stand.open_files()
    stand.stop()
    stand.start(prefix=("sh", "-c", f'ulimit -n {idle + stand.lanes + 17}; exec "$@"', "sh"))
    return counted(stand.told_all(stand.send_all([(f"x{number}", f"y{number}") for number in range(FEW)])))


def alone(play, workers=1, **words):
    def plays(program, chance):
        with Stand(program, chance, workers) as stand:
            return play(stand, **words)

    return plays


def both(program, chance):
    with Stand(program, chance) as first, Stand(program, chance) as second:
        return two_services(first, second)


ENDED = "FAILED (source digest), CANCELED (cancelled), CANCELED (cancelled); left [], open below the grid 0"
AWAY = "8 FAILED (store failed), 2 FINISHED; made anew: False"
KINDS = {
    "two services over one grid, one part's name": (both, "FINISHED, FINISHED; equal to their sources: 2"),
    "a file that is renamed onto a part": (alone(renamed_onto), "FAILED (store failed), attempt 1; at the destination nothing"),
    "the same, with a retry": (alone(renamed_onto, retry=1), "FINISHED, attempt 2; at the destination the source's bytes"),
    "the same, with overwrite": (alone(renamed_onto, overwrite=True), "FAILED (store failed), attempt 1; at the destination what was there"),
    "an endpoint's folder that is moved away, one worker": (alone(moved_away), AWAY),
    "an older endpoint's folder that is moved away, four workers": (alone(moved_away, 4, is_older=True), AWAY),
    "copies that end otherwise than verified": (alone(ends), ENDED),
    "parts of before a start": (alone(parts_of_before), "FINISHED; left note, part-9, part-x"),
    "destinations that are replaced": (alone(modes), "FINISHED; modes 600, 640, 755, 444, 644"),
    "few handles": (alone(few_handles, 16), f"{FEW} FINISHED"),
}


def is_as_wanted(kind, program, seed):
    play, wanted = KINDS[kind]
    try:
        found = play(program, random.Random(seed))
    except (AssertionError, OSError) as error:
        found = f"not so: {error}"
    print(f"{kind}: {found}" + ("" if found == wanted else f"; wanted: {wanted}"), flush=True)
    return found == wanted


def main():
    os.umask(0o022)
    program = str(pathlib.Path(sys.argv[1]).resolve())
    seed = int(sys.argv[2]) if len(sys.argv) > 2 else 1
    wrong = sum(1 for kind in KINDS if not is_as_wanted(kind, program, seed))
    print(f"kinds {len(KINDS)}, otherwise than wanted {wrong}")
    return 1 if wrong else 0


if __name__ == "__main__":
    sys.exit(main())
