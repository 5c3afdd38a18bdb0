#!/usr/bin/env python3
"""The calls on files of a session that copies one file, as strace sees them: what is synced and how often, in which order a part becomes its
destination, and what comes of each call that fails once.

acceptance/calls.py PROGRAM: PROGRAM is fts as it was built. Needs strace, which lists the calls of a session and lets one of them fail with EIO.
What is wanted follows from definitions, and from no output. Of the journal: an opening syncs the file and its folder (`opens_to_serve` of fts_disk);
its creation is a sync; an append is two, of body and closed gate and of the open gate (`fts_journal`); zeros ahead are one (`readies`).
Of a copy: the part's data, and the folders of its destination from the lowest up to the first whose name is stable (`moves` of fts_files, `to_sync`
of fts_store). A job is four entries: Restart, submission, claim and report. Status 1 where one line is otherwise.
"""
import collections
import json
import os
import pathlib
import re
import sys
import tempfile

from folders import A, B, JOB, Stand, document
from serving import wrong_in

CALLS = ("fdatasync", "fsync", "openat", "?link", "linkat", "?unlink", "unlinkat", "?rename", "renameat", "renameat2", "?mkdir", "mkdirat")
LINE = re.compile(r"(?:\d+ +)?(\w+)\((.*)\) += ")
NAMED = re.compile(r'"([^"]*)"|\d+<([^>]*)>')
SOURCE, DEST = f"{A}/s", f"{B}/d/e/o"
CONTENT = bytes(n % 251 for n in range(70_000))
JOURNAL, PART = "fts.journal", "grid/https:,,b.example/.fts/part-1"
# the destination's folders, from the lowest up to the stand
FOLDERS = ("grid/https:,,b.example/d/e", "grid/https:,,b.example/d", "grid/https:,,b.example", "grid", ".")
Call = collections.namedtuple("Call", ("name", "number", "place"))


def calls_in(text, top):
    """The calls below a folder, each with its number among those of its name; of two names the last is taken."""
    counts, found = collections.Counter(), []
    for line in text.splitlines():
        if read := LINE.match(line):
            counts[read[1]] += 1
            names = [one or other for one, other in NAMED.findall(read[2])]
            if names and pathlib.Path(names[-1]).is_relative_to(top):
                found.append(Call(read[1], counts[read[1]], str(pathlib.Path(names[-1]).relative_to(top))))
    return found


def traced(stand, requests, failing=None):
    """The status and the replies of a session, and its calls; the failing one answers EIO."""
    inject = ["-e", f"inject={failing.name}:error=EIO:when={failing.number}"] if failing else []
    with tempfile.NamedTemporaryFile("r") as output:
        prefix = ["strace", "-f", "-y", "-o", output.name, "-e", "trace=" + ",".join(CALLS), *inject]
        status, replies = stand.session(*requests, prefix=prefix)
        return status, replies, calls_in(output.read(), os.path.realpath(stand.path))


def submission(*places, **params):
    return "POST /jobs", json.dumps(document([([SOURCE], place) for place in places], **params))


def made(program, is_there=False):
    """A stand with the source; and with another file at the destination."""
    stand = Stand(program, 1)
    for place, content in ((SOURCE, CONTENT), (DEST, b"there"))[: 1 + is_there]:
        stand.at(place).parent.mkdir(parents=True)
        stand.at(place).write_bytes(content)
    return stand


def synced(calls):
    return collections.Counter((call.name, call.place) for call in calls if call.name in ("fsync", "fdatasync"))


# file and folder of the journal at its opening; the creation, zeros ahead, and the Restart
START = collections.Counter({("fsync", JOURNAL): 1, ("fsync", "."): 1, ("fdatasync", JOURNAL): 4})
# submission, claim and report; the part; its folders, whose names are not known to be stable
FILE = collections.Counter({("fdatasync", JOURNAL): 6, ("fdatasync", PART): 1, **{("fsync", folder): 1 for folder in FOLDERS}})
# claim and report; the part; the folder that it lies in
BESIDE = collections.Counter({("fdatasync", JOURNAL): 4, ("fdatasync", PART[:-1] + "2"): 1, ("fsync", FOLDERS[0]): 1})


def counts(program):
    rows = {
        "no request": ((), START),
        "one file": ((submission(DEST),), START + FILE),
        "two files into one folder": ((submission(DEST, DEST + "2"),), START + FILE + BESIDE),
    }
    for name, (requests, wanted) in rows.items():
        status, _, calls = traced(made(program), requests)
        found = synced(calls)
        by_call = {call: sum(count for (it, _), count in found.items() if it == call) for call in ("fdatasync", "fsync")}
        told = f"{name}: {by_call['fdatasync']} fdatasync, {by_call['fsync']} fsync"
        if found != wanted:
            told += f" (missing {dict(wanted - found)}, too many {dict(found - wanted)})"
        yield told, status == 0 and found == wanted


def order(calls):
    """What is done from the sync of the part on, up to the next call on the journal."""
    begin = next(place for place, call in enumerate(calls) if call.place == PART and call.name == "fdatasync")
    end = next(place for place in range(begin, len(calls)) if calls[place].place == JOURNAL)
    return [(re.sub("at2?$", "", call.name), call.place) for call in calls[begin:end]]


def orders(program):
    dest = "grid/https:,,b.example/d/e/o"
    folders = [(call, folder) for folder in FOLDERS for call in ("open", "fsync")]
    rows = {
        "where nothing is": (False, [("fdatasync", PART), ("link", dest), ("unlink", PART), *folders]),
        "in place of a file": (True, [("fdatasync", PART), ("rename", dest), *folders]),
    }
    for name, (is_there, wanted) in rows.items():
        stand = made(program, is_there)
        _, _, calls = traced(stand, [submission(DEST, overwrite=is_there)])
        found = order(calls)
        is_wanted = found == wanted and stand.at(DEST).read_bytes() == CONTENT
        yield f"a move to {name}: " + (f"{len(found)} calls in their order" if is_wanted else str(found)), is_wanted


def phase_of(calls, place):
    """Which step of the session a call belongs to, by the syncs of the journal before it; none where it is left out."""
    call, before = calls[place], synced(calls[:place])["fdatasync", JOURNAL]
    if call.place != JOURNAL and before == 8:
        return "copy"
    if call.place not in (JOURNAL, "."):
        return None
    return next(name for name, end in (("start", 4), ("submission", 6), ("claim", 8), ("report", 10)) if before < end)


def told(stand):
    """The state of the file as the next run answers it before it copies anything."""
    status, replies = stand.session((f"GET {JOB}/files", ""))
    if status or replies[0][0] == 404:
        return f"status {status}" if status else "no job"
    row = replies[0][1][0]
    return row["file_state"] + (f" ({row['reason']})" if row["reason"] else "")


def outcome(program, failing, is_there, **params):
    """How a session ends in which a call fails, what the next one finds, and what becomes of the file; submitted again where it is not there."""
    stand = made(program, is_there)
    status, replies, _ = traced(stand, [submission(DEST, **params)], failing)
    found = told(stand)
    if found == "no job":
        stand.session(submission(DEST, **params))
    stand.session()
    there = stand.at(DEST).read_bytes() if stand.at(DEST).exists() else None
    end = f"{told(stand)}, destination {'whole' if there == CONTENT else 'free' if there is None else 'of other bytes'}"
    return f"status {status}, {', '.join(str(code) for code, _ in replies) or 'no reply'}; {found}; {end}"


# by the step of a failing call: whether something is at the destination, what the job asks for, and the outcomes that are wanted
NOTHING, TAKEN = "status 4, no reply; no job", "FINISHED, destination whole"
FAILED = "status 0, 200; FAILED (store failed); FAILED (store failed), destination"
WANTED = (
    ("start", False, {}, {f"{NOTHING}; {TAKEN}"}),
    ("submission", False, {}, {f"status 0, 503; {found}; {TAKEN}" for found in ("no job", "SUBMITTED")}),
    ("claim", False, {}, {f"status 0, 200; FINISHED; {TAKEN}"}),
    ("copy", False, {}, {f"{FAILED} free"}),
    ("copy", False, {"retry": 1}, {f"status 0, 200; FINISHED; {TAKEN}"}),
    # before the rename, and behind it
    ("copy", True, {"overwrite": True}, {f"{FAILED} of other bytes", f"{FAILED} whole"}),
    ("copy", True, {"overwrite": True, "retry": 1}, {f"status 0, 200; FINISHED; {TAKEN}"}),
    ("report", False, {}, {f"status 4, 200; FINISHED; {TAKEN}", "status 4, 200; SUBMITTED; FAILED (destination exists), destination whole"}),
    ("report", False, {"overwrite": True}, {f"status 4, 200; {found}; {TAKEN}" for found in ("FINISHED", "SUBMITTED")}),
)


def failures(program):
    for phase, is_there, params, wanted in WANTED:
        _, _, calls = traced(made(program, is_there), [submission(DEST, **params)])
        failing = [call for place, call in enumerate(calls) if phase_of(calls, place) == phase]
        found = {call: outcome(program, call, is_there, **params) for call in failing}
        kinds = collections.Counter(call.name for call in failing)
        words = "".join(f", {it} {value}" for it, value in params.items())
        yield f"{phase}{words}: {', '.join(f'{count} {it}' for it, count in kinds.items())} failed, each in a run", bool(failing)
        for came, count in collections.Counter(found.values()).most_common():
            others = "" if came in wanted else f" {[f'{it.name} {it.place}' for it in failing if found[it] == came]}"
            yield f"  {count} {came}{others}", came in wanted


def main():
    program = str(pathlib.Path(sys.argv[1]).resolve())
    wrong = sum(wrong_in(tried(program)) for tried in (counts, orders, failures))
    print(f"otherwise than wanted {wrong}")
    return 1 if wrong else 0


if __name__ == "__main__":
    sys.exit(main())
