#!/usr/bin/env python3
"""Deletions over real folders, by the program as it was built: what `fts STAND delete` removes, records and tells.

acceptance/deletions.py PROGRAM [FILES]: PROGRAM is fts as it was built. Each line says what was tried and what came. FILES are removed in runs of 200
(2000 where none is named), each of them in turn with the same removals and the same syncs by this script alone, and both times are told; then 200 files
over these settled rows beside 200 in a new folder, in turn, by their time and by the calls on the grid's files.
acceptance/deletions.py PROGRAM time FILES..: these times alone, for each number.
acceptance/deletions.py PROGRAM cut [RUNS]: as root. The grid is a file system in an image, and the journal lies elsewhere. A run is killed in the
middle, and the image is copied as it then is, without what the system has not written to it: no file that the journal calls gone may be there. RUNS
are 5 where none is named. An unlinked file that nobody synced has to be there in each image: else nothing was tried.
What is wanted stands in "Deletions" of docs/API.md. Status 1 where a line is otherwise.
"""
import contextlib
import importlib.util
import io
import json
import os
import pathlib
import random
import resource
import shutil
import signal
import statistics
import subprocess
import sys
import tempfile
import time

from failing_device import shell
from grid import BIG, Stand
from serving import A, B, SETTINGS, wrong_in

SCRIPT = pathlib.Path(__file__).resolve().parent.parent / "examples" / "journal_gates.py"
SOME_FILES, ASKED_AT_ONCE, RUNS, SETTLED_ROUNDS = 2000, 200, 5, 5
# files of a run that is killed, and the latest moment of that in seconds
CUT_FILES, CUT_SECONDS = 150, 0.4
HEADER_BYTES = 8


def document(names):
    return json.dumps({"delete": [f"{A}/{name}" for name in names]}).encode()


def events(content):
    """The bodies of a journal of deletions, behind open gates."""
    at = HEADER_BYTES
    while content[at : at + 1] == b"\1":
        length = int.from_bytes(content[at + 1 : at + 5], "little")
        yield content[at + 5 : at + 5 + length]
        at += 5 + length


def number_at(body, at):
    value = shift = 0
    while True:
        value |= (body[at] & 127) << shift
        at, shift = at + 1, shift + 7
        if body[at - 1] < 128:
            return value, at


def text_at(body, at):
    length, at = number_at(body, at)
    return body[at : at + length].decode(), at + length


def recorded(content):
    """The paths that a journal of deletions asks for, and those of them that it calls gone."""
    asked, gone = [], set()
    for body in events(content):
        if body[0] == 1:
            count, at = number_at(body, 1)
            for _ in range(count):
                _, at = text_at(body, at)
                path, at = text_at(body, at)
                asked.append(path)
        elif body[0] == 2:
            gone.add(asked[number_at(body, 1)[0] - 1])
    return asked, gone


class Folder:
    """A stand without a service, and runs of `delete` over it."""

    def __init__(self, program):
        self.program, self.folder = program, tempfile.TemporaryDirectory()
        self.path = pathlib.Path(self.folder.name)
        self.own = self.path / "grid" / A.replace("/", ",")
        self.journal = self.path / "fts.deletes"
        (self.path / "fts.toml").write_text(SETTINGS)
        self.own.mkdir(parents=True)

    def put(self, name, content=b"abc"):
        (self.own / name).parent.mkdir(parents=True, exist_ok=True)
        (self.own / name).write_bytes(content)

    def words(self):
        return [self.program, str(self.path), "delete"]

    def delete(self, given=b""):
        """The status, the states of the rows in their order, and the note."""
        ended = subprocess.run(self.words(), input=given, capture_output=True)
        rows = [line.split() for line in ended.stdout.decode().splitlines()]
        assert all(row[:2] == ["delete", str(place)] and len(row) == 4 for place, row in enumerate(rows, 1)), ended.stdout
        self.urls = [row[3] for row in rows]
        return ended.returncode, [row[2] for row in rows], ended.stderr.decode().strip()

    def recorded(self):
        """The paths that the journal asks for, and those of them that it calls gone."""
        return recorded(self.journal.read_bytes()) if self.journal.exists() else ([], set())

    def left(self):
        """What lies below the endpoint's own folder, links too."""
        return sorted(str(it.relative_to(self.own)) for it in self.own.rglob("*"))


def removes(program):
    stand = Folder(program)
    for name in ("f1", "a/b/f2", "a/b/f3", "f4"):
        stand.put(name)
    came = stand.delete(document(["f1", "a/b/f2", "none", "a/none/f"]))
    wanted = (0, ["FINISHED"] * 4, ""), [f"{A}/f1", f"{A}/a/b/f2", f"{A}/none", f"{A}/a/none/f"], ["a", "a/b", "a/b/f3", "f4"]
    yield f"two files and two names without one: {came[:2]}, left {stand.left()}", (came, stand.urls, stand.left()) == wanted
    before = stand.journal.read_bytes()
    came = stand.delete()
    is_same = stand.journal.read_bytes() == before
    yield f"an empty input: {came[:2]}, the journal stays: {is_same}", came == (0, ["FINISHED"] * 4, "") and is_same
    stand.put("f1")
    came = stand.delete(document(["f1"]))
    yield f"one of them again: {came[:2]}, left {stand.left()}", came == (0, ["FINISHED"] * 5, "") and "f1" not in stand.left()


def misses(program):
    stand = Folder(program)
    stand.put("d/f")
    stand.put("goes")
    told = [stand.delete(document(["d", "goes"]))[1]] + [stand.delete()[1] for _ in range(3)]
    wanted = [["WAITING", "FINISHED"], ["WAITING", "FINISHED"], ["FAILED", "FINISHED"], ["FAILED", "FINISHED"]]
    yield f"a folder in a file's place, over four runs: {[it[0] for it in told]}", told == wanted and stand.left() == ["d", "d/f"]
    stand = Folder(program)
    stand.put("d/f")
    first = stand.delete(document(["d"]))[1]
    (stand.own / "d/f").unlink()
    (stand.own / "d").rmdir()
    second = stand.delete()[1]
    yield f"it vanishes behind the first run: {first}, {second}", (first, second) == (["WAITING"], ["FINISHED"])
    stand = Folder(program)
    stand.own.rename(stand.path / "away")
    first = stand.delete(document(["f"]))[1]
    (stand.path / "away").rename(stand.own)
    second = stand.delete()[1]
    yield f"an endpoint's own folder that is away: {first}, and once it is back {second}", (first, second) == (["WAITING"], ["FINISHED"])


def keeps(program):
    """Nothing behind a link, and nothing among parts."""
    stand = Folder(program)
    outside = stand.path / "outside"
    (outside / "deep").mkdir(parents=True)
    for name in ("f", "deep/f"):
        (outside / name).write_bytes(b"out")
    stand.put("own")
    stand.put(".fts/part-1")
    links = {"file": outside / "f", "folder": outside, "sibling": "own", "nothing": "nowhere"}
    for name, target in links.items():
        (stand.own / name).symlink_to(target)
    before = stand.left()
    asked = ["file", "folder/f", "folder/deep/f", "folder/none", "sibling", "nothing"]
    told = [stand.delete(document(asked))[1]] + [stand.delete()[1] for _ in range(2)]
    are_kept = (outside / "f").exists() and (outside / "deep/f").exists() and stand.left() == before
    is_wanted = told == [["WAITING"] * 6] * 2 + [["FAILED"] * 6] and are_kept
    yield f"links, and what lies behind them, over three runs: {[sorted(set(it)) for it in told]}, all kept: {are_kept}", is_wanted
    came = stand.delete(document([".fts/part-1"]))
    is_kept = (stand.own / ".fts/part-1").exists()
    yield f"a part: {came[0]}, {came[2]!r}, kept: {is_kept}", (came[0], came[2], is_kept) == (20, "fts: delete document rule 6", True)
    real = stand.path / "real"
    stand.own.rename(real)
    stand.own.symlink_to(real)
    came = stand.delete(document(["own"]))
    is_gone = not (real / "own").exists()
    yield f"an endpoint's own folder that is a link: {came[1][-1]}, gone: {is_gone}", came[1][-1] == "FINISHED" and is_gone


def refuses(program):
    rows = {
        b"delete": (20, "fts: delete document rule 1"),
        b"[]": (20, "fts: delete document rule 2"),
        b'{"delete":[]}': (20, "fts: delete document rule 3"),
        document(f"f{number}" for number in range(201)): (20, "fts: delete document rule 4"),
        b'{"delete":[1]}': (20, "fts: delete document rule 5"),
        b'{"delete":["https://c.example/f"]}': (20, "fts: delete document rule 7"),
        b" " * (1 << 20) + document(["f1"]): (20, "fts: delete document rule 8"),
    }
    for given, wanted in rows.items():
        stand = Folder(program)
        stand.put("f1")
        status, told, note = stand.delete(given)
        is_wanted = (status, note) == wanted and not told and stand.left() == ["f1"]
        yield f"{given[:40]!r}: {status}, {note!r}", is_wanted
    stand = Folder(program)
    subprocess.run([program, str(stand.path), "session"], stdin=subprocess.DEVNULL, check=True, capture_output=True)
    transfers = (stand.path / "fts.journal").read_bytes()
    stand.journal.write_bytes(transfers)
    status, told, note = stand.delete(document(["f1"]))
    is_same = stand.journal.read_bytes() == transfers
    yield f"a journal of transfers in its place: {status}, {note!r}, it stays: {is_same}", status == 7 and not told and is_same
    stand = Folder(program)
    first = subprocess.Popen(stand.words(), stdin=subprocess.PIPE, stdout=subprocess.DEVNULL)
    while not (stand.journal.exists() and stand.journal.stat().st_size > HEADER_BYTES):
        time.sleep(0.01)
    status, told, note = stand.delete()
    first.communicate()
    yield f"a second run while one reads its input: {status}, {note!r}", (status, note, first.returncode) == (4, "fts: disk failed", 0)


def goes_on(program, chance):
    """A run is killed in the middle of its pass, again and again, until all is gone."""
    stand = Folder(program)
    names = [f"d{number % 7}/f{number}" for number in range(ASKED_AT_ONCE)]
    for name in names:
        stand.put(name)
    given, kills = document(names), 0
    for _ in range(1000):
        run = subprocess.Popen(stand.words(), stdin=subprocess.PIPE, stdout=subprocess.DEVNULL)
        with contextlib.suppress(BrokenPipeError):
            run.stdin.write(given)
            run.stdin.close()
        with contextlib.suppress(subprocess.TimeoutExpired):
            run.wait(chance.uniform(0, 0.05))
        if run.poll() is not None:
            given = b""
            break
        run.kill()
        run.wait()
        kills += 1
        if stand.recorded()[0]:
            given = b""
    status, told, _ = stand.delete(given)
    files = [it for it in stand.left() if "f" in it]
    is_wanted = kills > 0 and (status, told, files) == (0, ["FINISHED"] * ASKED_AT_ONCE, [])
    yield f"killed {kills} times: then rows {len(told)}, all {sorted(set(told))}, files left {len(files)}", is_wanted


def gates():
    """The script that reads the gates of a journal."""
    sys.dont_write_bytecode = True
    found = importlib.util.spec_from_file_location("journal_gates", SCRIPT)
    script = importlib.util.module_from_spec(found)
    found.loader.exec_module(script)
    return script


def read_by(script, content):
    """What the script reads in the bytes of a journal of deletions, and the offsets that status 7 may name."""
    journal = script.Journal(script.Content(io.BytesIO(content), script.DELETIONS))
    journal.read()
    if not journal.has_header:
        return journal, [0]
    if journal.cut:
        return journal, [journal.gate]
    entries = list(script.entries_from(journal.content, HEADER_BYTES))
    fault = next((entry.fault for entry in entries if entry.fault is not None), None)
    return journal, ([fault] if fault is not None else [None]) + [entry.gate for entry in entries]


def damages(program):
    """Each byte of a journal of deletions is changed, once by a bit and once to 01: the script names the offset of status 7."""
    script, stand = gates(), Folder(program)
    stand.put("d/f")
    stand.put("f")
    stand.delete(document(["f", "d"]))
    made = stand.journal.read_bytes()
    journal, _ = read_by(script, made)
    counts = dict(journal.whole.commands)
    yield f"the script reads {counts}, the last ends at {journal.whole.end}", counts == {"ask": 1, "gone": 1, "missed": 1} and not list(journal.damages())
    count, wrong = 0, []
    for at in range(journal.whole.end + 1):
        for value in {made[at] ^ 1 << at % 8, 1} - {made[at]}:
            content = made[:at] + bytes([value]) + made[at + 1 : journal.whole.end + 1]
            stand.journal.write_bytes(content)
            status, _, note = stand.delete()
            offset = int(note.rsplit(" ", 1)[1]) if status == 7 else None
            is_kept = status == 0 or stand.journal.read_bytes() == content
            count += 1
            if status not in (0, 7) or offset not in read_by(script, content)[1] or not is_kept:
                wrong.append(f"{value:02x} at {at}: {status}, {note!r}")
    yield f"{count} journals with a changed byte: otherwise {wrong or 'none'}", not wrong


def beside_a_service(program, chance):
    """A run over the grid of a service that is in the middle of a copy, and has written another file before."""
    with Stand(program, chance) as service:
        service.put(A, "small", 1000)
        service.put(A, "big", BIG)
        told = [service.told(service.send("small", "done"))]
        job = service.send("big", "copy")
        service.stop_in_copy(2)
        given = json.dumps({"delete": [f"{B}/done", f"{B}/copy", f"{A}/small"]}).encode()
        ended = subprocess.run([program, str(service.path), "delete"], input=given, capture_output=True)
        states = [line.split()[2] for line in ended.stdout.decode().splitlines()]
        is_part = service.part(2).is_file()
        service.go_on()
        told.append(service.told(job))
        left = [(service.at(B, name)).exists() for name in ("done", "copy")]
        is_wanted = (told, states, is_part, left) == (["FINISHED", "FINISHED"], ["FINISHED"] * 3, True, [False, True])
        yield f"beside a copy that runs: {states}, its part stays: {is_part}; then it is {told[1]}, what was written before is left: {left[0]}", is_wanted


def took(work):
    begun = time.monotonic()
    work()
    return time.monotonic() - begun


def processor_time():
    """The seconds of processor time of all programs that were run and have ended."""
    spent = resource.getrusage(resource.RUSAGE_CHILDREN)
    return spent.ru_utime + spent.ru_stime


def removed_by_script(folder, names):
    """The same removals, each with two syncs of the folder, and two writes of a body with a sync each, as they are recorded."""
    with open(folder / "journal", "ab", buffering=0) as journal:
        for name in names:
            place = folder / name
            place.unlink()
            handle = os.open(place.parent, os.O_RDONLY)
            for _ in range(2):
                os.fsync(handle)
            os.close(handle)
            for body in (b"12345678", b"1"):
                journal.write(body)
                os.fdatasync(journal.fileno())


class Passes:
    """A stand whose runs have to leave no row that isn't FINISHED; `rows` is how many there are."""

    def __init__(self, program):
        self.stand, self.rows, self.wrong = Folder(program), 0, []

    def delete(self, names):
        status, told, _ = self.stand.delete(document(names) if names else b"")
        self.rows += len(names)
        if status or told != ["FINISHED"] * self.rows:
            self.wrong.append((status, len(told)))

    def took(self, names=()):
        """The seconds of a run for so many files, which are put before."""
        for name in names:
            self.stand.put(name)
        os.sync()
        return took(lambda: self.delete(names))

    def calls(self, names):
        """How many calls on the files of its grid a run for so many files makes, as strace sees them. The run isn't timed."""
        for name in names:
            self.stand.put(name)
        self.rows += len(names)
        with tempfile.NamedTemporaryFile("r") as output:
            words = ["strace", "-f", "-y", "-o", output.name, "-e", "trace=%file,%desc", *self.stand.words()]
            subprocess.run(words, input=document(names), stdout=subprocess.DEVNULL, check=True)
            return sum("/grid" in line for line in output)


def settles(program, over, count):
    """Runs of so many files over settled rows and in a new folder, in turn."""
    names = [f"again/f{number}" for number in range(count)]
    first, times = over.rows, []
    for _ in range(SETTLED_ROUNDS):
        alone = Passes(program)
        times.append((over.took(names), alone.took(names)))
        over.wrong += alone.wrong
    spent = processor_time()
    idle = statistics.median(over.took() for _ in range(SETTLED_ROUNDS))
    spent = (processor_time() - spent) / SETTLED_ROUNDS
    both = [statistics.median(it) for it in zip(*times)]
    told = f"{count} files over {first} settled rows and more: {both[0]:.2f} s; in a new folder: {both[1]:.2f} s (medians of {SETTLED_ROUNDS}, in turn); "
    yield told + f"a run with nothing to do over these rows: {idle:.3f} s, {spent:.3f} s of it processor time", not over.wrong
    if shutil.which("strace"):
        calls = over.calls(names), Passes(program).calls(names)
        yield f"their calls on the grid's files, as strace sees them: {calls[0]}; in a new folder: {calls[1]}", calls[0] == calls[1] > 0


def measures(program, count):
    over, other = Passes(program), Folder(program)
    names = [f"d{number // 1000}/f{number}" for number in range(count)]
    for name in names:
        over.stand.put(name)
        other.put(name)
    os.sync()
    own, script, spent = [], [], processor_time()
    for place in range(0, count, ASKED_AT_ONCE):
        asked = names[place : place + ASKED_AT_ONCE]
        own.append(took(lambda: over.delete(asked)))
        script.append(took(lambda: removed_by_script(other.own, asked)))
    spent = processor_time() - spent
    told = f"{count} files in runs of {ASKED_AT_ONCE}: {sum(own):.2f} s, {spent:.2f} s of it processor time; "
    told += f"the same removals and syncs by a script, in turn: {sum(script):.2f} s; ratio {sum(own) / sum(script):.2f}; "
    told += f"the first run {own[0]:.2f} s, the last {own[-1]:.2f} s"
    yield told, not over.wrong and not [it for it in over.stand.left() if "/f" in it]
    yield from settles(program, over, ASKED_AT_ONCE)


class Image:
    """A file system in an image, mounted at a place, whose dirty pages the system keeps to itself for five minutes; for `with`."""

    def __init__(self, place, mount):
        self.path, self.mount = place / "image", mount
        shell(f"truncate -s 64M {self.path}; mkfs.ext4 -q -F -m 0 -b 4096 -J size=4 {self.path}; mkdir -p {mount}")
        shell(f"mount -o loop,commit=300,noatime {self.path} {mount}")

    def copied(self, place):
        """Which files the image has as it is now, once its log is played."""
        copy, mount = place / "copy", place / "copied"
        shell(f"cp {self.path} {copy}; mkdir -p {mount}; mount -o loop {copy} {mount}")
        try:
            return {str(it.relative_to(mount)) for it in mount.rglob("*") if it.is_file()}
        finally:
            shell(f"umount {mount}; rm {copy}")

    def __enter__(self):
        return self

    def __exit__(self, *_):
        shell(f"umount {self.mount}")


def cut_once(program, seconds):
    """Of a run that is killed behind so many seconds: how many files the journal calls gone, which of them the image has, and whether it has what nobody synced."""
    stand = Folder(program)
    stand.own.rmdir()
    with Image(stand.path, stand.path / "grid") as image:
        names = [f"d{number % 5}/f{number}" for number in range(CUT_FILES)]
        for name in [*names, "unsynced"]:
            stand.put(name)
        os.sync()
        run = subprocess.Popen(stand.words(), stdin=subprocess.PIPE, stdout=subprocess.DEVNULL)
        run.stdin.write(document(names))
        run.stdin.close()
        time.sleep(seconds)
        run.send_signal(signal.SIGKILL)
        run.wait()
        (stand.own / "unsynced").unlink()
        there = {it.split("/", 1)[1] for it in image.copied(stand.path) if "/" in it}
        gone = stand.recorded()[1]
        return len(gone), sorted(gone & there), "unsynced" in there


def cuts(program, chance, runs):
    some = 0
    for _ in range(runs):
        count, back, is_tried = cut_once(program, chance.uniform(0, CUT_SECONDS))
        some += 0 < count < CUT_FILES
        told = f"a cut with {count} of {CUT_FILES} files called gone: there are {back or 'none'} of them; what nobody synced is there: {is_tried}"
        yield told, not back and is_tried
    yield f"cuts in the middle of a pass: {some}", some > 0


def main(words):
    if not words:
        sys.exit(__doc__)
    signal.signal(signal.SIGINT, signal.default_int_handler)
    program, chance = str(pathlib.Path(words[0]).resolve()), random.Random(1)
    if words[1:2] == ["cut"]:
        wrong = wrong_in(cuts(program, chance, int(words[2]) if words[2:] else RUNS))
    elif words[1:2] == ["time"]:
        wrong = sum(wrong_in(measures(program, int(count))) for count in words[2:])
    else:
        wrong = sum(wrong_in(tried(program)) for tried in (removes, misses, keeps, refuses, damages))
        wrong += sum(wrong_in(tried(program, chance)) for tried in (goes_on, beside_a_service))
        wrong += wrong_in(measures(program, int(words[1]) if words[1:] else SOME_FILES))
    print(f"otherwise than wanted {wrong}")
    return 1 if wrong else 0


if __name__ == "__main__":
    sys.exit(main(sys.argv[1:]))
