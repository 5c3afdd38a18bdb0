#!/usr/bin/env python3
"""The exchanges of crates/fts_session_trial/data by the program as it was built, each in a new folder, compared byte for byte.

acceptance/exchanges.py PROGRAM: PROGRAM is fts as it was built. For each NAME.http the replies are compared with NAME.reply.http, and with NAME.after the
status of the process and the files of the grid: `DEST = SOURCE` for two that are equal, `DEST = nothing` for one that is not there. The moments are
the machine's own: each submit_time, each not_before but 0, and the moment within an entry of the journal that is shown, is taken for the one that
is written. crates/fts_session_trial plays the same files with a clock that stands still.
"""
import pathlib
import re
import subprocess
import sys
import tempfile

EXCHANGES = pathlib.Path(__file__).resolve().parent.parent / "crates" / "fts_session_trial" / "data"
SOURCES = {
    "https:,,a.example/data/f1": b"abc",
    "https:,,a.example/data/f2": bytes(n % 251 for n in range(70000)),
    "https:,,a.example/data/empty": b"",
    "https:,,b.example/there": b"other",
    "https:,,b.example/kept": b"other",
}
MOMENT = re.compile(rb'("submit_time":|"not_before":)\d{10}')
# In an entry of writer 0 it stands behind the byte of the command: five bytes, of which all but the last have their highest bit.
ENTRY_MOMENT = re.compile(rb'("body":"00[0-9a-f]{2})(?:[89a-f][0-9a-f]){4}[0-7][0-9a-f]')


def without_moments(replies):
    return ENTRY_MOMENT.sub(rb"\1", MOMENT.sub(rb"\1", replies))


def make_stand(stand):
    for name, content in SOURCES.items():
        path = stand / "grid" / name
        path.parent.mkdir(parents=True, exist_ok=True)
        path.write_bytes(content)
    (stand / "fts.toml").write_bytes((EXCHANGES / "fts.toml").read_bytes())


def holds(grid, line):
    dest, source = line.split(" = ")
    if source == "nothing":
        return not (grid / dest).exists()
    return (grid / dest).exists() and (grid / dest).read_bytes() == (grid / source).read_bytes()


def play(program, name):
    with tempfile.TemporaryDirectory() as folder:
        stand = pathlib.Path(folder)
        make_stand(stand)
        run = subprocess.run([program, folder, "session"], input=(EXCHANGES / f"{name}.http").read_bytes(), capture_output=True)
        status, *lines = (EXCHANGES / f"{name}.after").read_text().splitlines()
        wanted = (EXCHANGES / f"{name}.reply.http").read_bytes()
        wrong = []
        if without_moments(run.stdout) != without_moments(wanted) or len(run.stdout) != len(wanted):
            wrong.append("replies")
        if status != f"status {run.returncode}":
            wrong.append(f"status {run.returncode}")
        return wrong + [line for line in lines if not holds(stand / "grid", line)]


def main():
    names = sorted(path.name[: -len(".after")] for path in EXCHANGES.glob("*.after"))
    wrong = {name: play(sys.argv[1], name) for name in names}
    for name, what in wrong.items():
        if what:
            print(f"{name}: {', '.join(what)}")
    count = sum(1 for what in wrong.values() if what)
    print(f"exchanges {len(names)}, otherwise than written {count}")
    return 1 if count or not names else 0


if __name__ == "__main__":
    sys.exit(main())
