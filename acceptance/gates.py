#!/usr/bin/env python3
"""Each kind of damage of a journal, and the way back: what `show` says, what examples/journal_gates.py says and writes, and which jobs that gives back.

acceptance/gates.py PROGRAM: PROGRAM is fts as it was built. Three sessions make a journal behind entries of an old moment, so that a file is overdue;
each kind of entry stands in it, and behind each session `show` says which jobs there are. That journal is damaged, each time in one way. Wanted:
`show` ends with 7 at the offset that the damage has by docs/FORMATS.md, or with 0 where the bytes are a journal all the same. The script says
where the last whole entry ends, and whether there is damage. The copy that it writes by docs/OPERATING.md, and another one by --close alone, are
opened by `show`, with the jobs of all entries before the damage, and by sessions, which go on with them. No file that was there is changed. Then each
byte of the journal is changed, one a run, and the script has to name the offset of status 7. A line a kind; what is otherwise is said below it, and
then the status is 1. It takes two minutes of one processor, and for a moment 3 GiB of the disk.
"""
import collections
import hashlib
import importlib.util
import io
import json
import pathlib
import subprocess
import sys
import tempfile

SCRIPT = pathlib.Path(__file__).resolve().parent.parent / "examples" / "journal_gates.py"
A, B = "https://a.example", "https://b.example"
SETTINGS = f"""vo = "demo"
workers = 1
[[storage]]
url = "{A}"
[[storage]]
url = "{B}"
[[link]]
source = "{A}"
destination = "{B}"
max_active = 3
[[activity]]
name = "default"
weight = 2
[[activity]]
name = "user"
weight = 300
"""
ID = "00000000-0000-4000-8000-{:012x}"
HEADER, FIRST_GATE, MIB = b"FTS3JRN1", 8, 1 << 20
# each gate of a journal stands below
END = 1 << 30
# moment 1700000000, and the cancellation of a job then, but for its number
NOW = bytes.fromhex("80e2cfaa06")
CANCEL = b"\3\3" + NOW
# a refused entry and a cut need two copies, one of the other
MOST_COPIES = 2


def text(of):
    return bytes([len(of)]) + of.encode()


# What stands in a journal before its first session: at moment 1000 a restart, the submission of a file that may wait an hour, and a ban of its storage.
THEN = bytes.fromhex("e807")
ENDS = b"".join(text(storage) + b"\5\5" for storage in (A, B))
FILE = b"\0" + text(A) + text("late") + text(B) + text("late") + b"\0\0" + text("default")
OPENING = [
    b"\0\1" + THEN + text("demo") + b"\1\2\2" + ENDS + b"\0\1" + text("default") + b"\1",
    b"\0\x0b" + THEN + b"\1" + b"\0\0\0\3\0\0\0\1" + FILE,
    b"\0\x08" + THEN + text(B) + b"\0",
]

# A damaged journal. `said` is the offset of status 7, or None for status 0; `end` is where the last whole entry ends, or None where there is no
# journal; `seen` says whether the script sees damage; `left` is what `show` says of the copies.
Kind = collections.namedtuple("Kind", "name content said end seen left")


class Sparse:
    """The bytes of a file of which most are zeros: the others by their offsets, and how many bytes there are."""

    def __init__(self, length, *pieces):
        self.length, self.pieces = length, pieces

    def __len__(self):
        return self.length


def write(path, content):
    with open(path, "wb") as out:
        for at, piece in content.pieces if isinstance(content, Sparse) else [(0, content)]:
            out.seek(at)
            out.write(piece)
        out.truncate(len(content))


def digest(path):
    found = hashlib.blake2b()
    with open(path, "rb") as file:
        while piece := file.read(MIB):
            found.update(piece)
    return found.digest()


class Stand:
    """A folder, and the program over it."""

    def __init__(self, program, journal=None):
        self.program, self.folder = program, tempfile.TemporaryDirectory()
        self.path = pathlib.Path(self.folder.name)
        self.journal = self.path / "fts.journal"
        (self.path / "fts.toml").write_text(SETTINGS)
        if journal is not None:
            write(self.journal, journal)

    def source(self, name):
        place = self.path / "grid" / A.replace("/", ",") / name
        place.parent.mkdir(parents=True, exist_ok=True)
        place.write_bytes(name.encode())

    def show(self):
        """The status, the offset where that is 7, and the lines."""
        run = subprocess.run([self.program, self.path, "show"], capture_output=True, text=True)
        offset = int(run.stderr.rsplit(" ", 1)[1]) if run.returncode == 7 else None
        return run.returncode, offset, run.stdout

    def session(self, *requests):
        """The statuses of the replies, and the process's own."""
        sent = b""
        for line, document in requests:
            body = json.dumps(document) if document else ""
            sent += f"{line} HTTP/1.1\r\nContent-Length: {len(body)}\r\n\r\n{body}".encode()
        run = subprocess.run([self.program, self.path, "session"], input=sent, capture_output=True)
        return [int(part[:3]) for part in run.stdout.split(b"HTTP/1.1 ")[1:]], run.returncode

    def gates(self, *words):
        """The script over the journal."""
        return subprocess.run([sys.executable, SCRIPT, self.journal, *map(str, words)], capture_output=True, text=True)


class Made:
    """A journal of three sessions, each of which ended at a gate, and what `show` said behind none, one, two and three of them."""

    def __init__(self, program):
        opening = HEADER + b"".join(framed(body) for body in OPENING) + b"\0"
        stand, self.ends, self.shows = Stand(program, opening), [FIRST_GATE], [""]
        for number in range(3):
            # the files of the second job wait for the end of the ban, so that a cancellation meets them
            requests = [("POST /jobs", one_file(stand, f"data/{number}")), BAN, ("POST /jobs", two_files(stand, number))]
            requests += [(f"POST /jobs/{ID.format(2 * number + 3)}", {"params": {"priority": 5}}), *CANCELLATIONS[number], END_OF_BAN]
            statuses, status = stand.session(*requests)
            shown = stand.show()
            if (statuses, status, shown[0]) != ([200] * len(requests), 0, 0) or "SUBMITTED" in shown[2] or "ACTIVE" in shown[2]:
                sys.exit(f"no journal could be made: {statuses}, {status}, show {shown}")
            self.content = stand.journal.read_bytes()
            self.ends.append(gates(self.content)[-1])
            self.shows.append(shown[2])
        missing = set(range(1, 12)) - {self.content[gate + 6] for gate in gates(self.content)[:-1]}
        if missing:
            sys.exit(f"no journal with each kind of entry could be made: without {sorted(missing)}")
        # the gates of the last session, with the one at its end, and where its first file's destination is spelled
        self.gates = [gate for gate in gates(self.content) if gate >= self.ends[2]]
        self.dest = self.content.index(text(B), self.gates[1])
        self.program = program

    def entry(self, command):
        """The gates around the first entry of a command in the last session, and what `show` says of all before it."""
        gate, end = next(pair for pair in zip(self.gates, self.gates[1:]) if self.content[pair[0] + 6] == command)
        return gate, end, Stand(self.program, self.content[:gate] + b"\0").show()[2]


CANCELLATIONS = [[(f"DELETE /jobs/{ID.format(3)}", None)], [(f"DELETE /jobs/{ID.format(5)}/files/7", None)], []]
BAN = ("POST /ban/se", {"storage": B, "status": "wait"})
END_OF_BAN = (f"DELETE /ban/se?storage={B}", None)


def one_file(stand, name):
    stand.source(name)
    return {"files": [{"sources": [f"{A}/{name}"], "destinations": [f"{B}/{name}"]}]}


def two_files(stand, number):
    """The first has a digest, the second is not there, and each may wait an hour."""
    name = f"data/{number}-1"
    first = one_file(stand, name)["files"][0] | {"checksum": "MD5:" + hashlib.md5(name.encode()).hexdigest(), "filesize": len(name)}
    second = {"sources": [f"{A}/none"], "destinations": [f"{B}/none"], "activity": "user"}
    params = {"overwrite": True, "retry": 2, "retry_delay": 300, "priority": 1, "verify_checksum": True, "max_time_in_queue": 1}
    return {"files": [first, second], "params": params}


def gates(content):
    """The offsets of the open gates, and of the one behind them."""
    found = [FIRST_GATE]
    while content[found[-1]] == 1:
        found.append(found[-1] + 5 + int.from_bytes(content[found[-1] + 1 : found[-1] + 5], "little"))
    return found


def id_of(number):
    """The sixteen bytes of a job's own id."""
    return bytes.fromhex(ID.format(number).replace("-", ""))


def size(length):
    return length.to_bytes(4, "little")


def framed(body):
    return b"\1" + size(len(body)) + body


def over(content, at, piece):
    return content[:at] + piece + content[at + len(piece) :]


def zeros(content, start, end):
    return over(content, start, bytes(end - start))


def into(content, at, piece):
    return content[:at] + piece + content[at:]


def no_journals(made):
    yield Kind("no byte", b"", 0, None, True, None)
    yield Kind("half a header", made.content[:5], 0, None, True, None)
    yield Kind("a header alone", made.content[:8], 0, None, True, None)
    yield Kind("another header, and no entry", b"FTS3JRN2\0", 0, None, True, None)
    yield Kind("another file", SETTINGS.encode() * 9, 0, None, True, None)
    yield Kind("another header", over(made.content, 7, b"2"), 0, made.ends[3], True, made.shows[3])


def cuts(made):
    content, gate, left = made.content, made.ends[2], made.shows[2]
    for name, length in (("where a gate is due", 0), ("behind an open gate", 1), ("in a length", 3), ("behind a length", 5), ("in a body", 25)):
        yield Kind(f"the file ends {name}", content[: gate + length], gate, gate, True, left)
    yield Kind("the file ends behind the first gate, which is open", HEADER + b"\1", 8, 8, True, "")
    yield Kind("the file ends in the first body", content[:30], 8, 8, True, "")
    yield Kind("an empty body", over(content, gate + 1, size(0)), gate, gate, True, left)
    long = over(content, gate + 1, size(4 * MIB + 1)) + bytes(8 * MIB)
    yield Kind("a body of a byte more than one may have", long, gate, gate, True, left)
    yield Kind("a body that is longer than the file", over(content, gate + 1, size(2 * MIB)), gate, gate, True, left)
    # bodies of zeros, which are no entries, lead to a gate whose body ends where a file has to
    at, pieces = gate, [(0, content[:gate])]
    while END - at > 5 + 4 * MIB:
        pieces.append((at, b"\1" + size(4 * MIB)))
        at += 5 + 4 * MIB
    pieces.append((at, b"\1" + size(END - at - 5)))
    yield Kind("no room for the gate behind a body", Sparse(END, *pieces), at, gate, True, left)


def no_entries(made):
    content, left = made.content, made.shows[2]
    restart, submit, claim = made.gates[:3]
    body = content[submit + 5 : claim]
    path = content.index(b"\6data/2", made.dest)
    label = content.index(b"default", submit, claim)
    longer = content[:submit] + framed(body + b"\0") + content[claim:]
    yield Kind("zeros over the end of a body", zeros(content, made.dest, claim), made.dest, submit, True, left)
    yield Kind("zeros over the end of a body and over gates", zeros(content, made.dest, made.gates[4] + 9), made.dest, submit, True, left)
    yield Kind("zeros over a whole body", zeros(content, submit + 5, claim), submit + 6, submit, True, left)
    yield Kind("zeros over the first body", zeros(content, 13, gates(content)[1]), 14, 8, True, "")
    yield Kind("a number that is not in its shortest form", over(content, submit + 11, b"\0"), submit + 7, submit, True, left)
    yield Kind("a command that there is not", over(content, submit + 6, b"\x0c"), submit + 6, submit, True, left)
    yield Kind("a name with a blank", over(content, made.dest + 12, b" "), made.dest, submit, True, left)
    yield Kind("a path that ends in a dot", over(content, path + 6, b"."), path, submit, True, left)
    yield Kind("a path below .fts", over(content, path + 1, b".fts"), path, submit, True, left)
    yield Kind("a label that is no UTF-8", over(content, label, b"\xff"), label - 1, submit, True, left)
    yield Kind("a byte behind an entry", longer, claim, submit, True, left)
    yield Kind("an entry without its last field", into(content, restart, framed(CANCEL)), restart + 12, restart, True, left)
    yield Kind("the end of a ban of no name", into(content, restart, framed(b"\0\x09" + NOW + b"\0")), restart + 12, restart, True, left)
    ban, end, left = made.entry(8)
    yield Kind("a ban with another flag", over(content, end - 1, b"\2"), end - 1, ban, True, left)
    yield Kind("a ban of a name with a blank", over(content, ban + 21, b" "), ban + 12, ban, True, left)
    limited, _, left = made.entry(11)
    yield Kind("no hours where there are some", over(content, limited + 12, b"\0"), limited + 12, limited, True, left)


def refusals(made):
    content, end, left = made.content, made.ends[3], made.shows[2]
    restart, submit, claim = made.gates[:3]
    cancel = framed(CANCEL + b"\x63")
    more = into(content, restart, cancel)
    at, end_of = next(pair for pair in zip(made.gates, made.gates[1:]) if content[pair[0] + 6] == 7)
    report = content[at:end_of]
    other = over(content, made.dest + 11, b"u")
    waits = f"job {ID.format(6)} SUBMITTED plain 3\nfile 8 0 SUBMITTED {A}/data/2 https://b.uxample/data/2\n"
    yield Kind("a cancellation of a job that is not there", more, restart, end + len(cancel), False, left)
    yield Kind("a report of a file that is not there yet", into(content, restart, report), restart, end + len(report), False, left)
    yield Kind("a cancellation of a job that is not there, and a cut", more[: gates(more)[-2] + 9], gates(more)[-2], gates(more)[-2], True, left)
    yield Kind("a refused entry alone", HEADER + cancel + b"\7", 8, 8 + len(cancel), False, "")
    yield Kind("another letter in a name, and a claim that is refused", other, claim, end, False, left + waits)
    for name, body in (
        ("a ban of a storage that is not there", b"\0\x08" + NOW + text("https://c.example") + b"\1"),
        ("the end of a ban that there is not", b"\0\x09" + NOW + text(A)),
        ("an expiry where nothing is overdue", b"\0\x0a" + NOW),
        ("a submission with hours of an id that there is", b"\0\x0b" + NOW + b"\1\0\0\1" + id_of(1) + b"\3\0\0\0\1" + FILE),
    ):
        yield Kind(name, into(content, restart, framed(body)), restart, end + len(framed(body)), False, left)


def journals(made):
    """Those that a service opens, some of them with entries less."""
    content, end = made.content, made.ends[3]
    restart, left = made.ends[2], made.shows[3]
    entry = framed(CANCEL + b"\1")[1:]
    yield Kind("a gate in the middle is 00", over(content, restart, b"\0"), None, restart, True, left)
    yield Kind("a gate in the middle is 07", over(content, restart, b"\7"), None, restart, True, left)
    yield Kind("zeros from a gate to another", zeros(content, restart, made.gates[2]), None, restart, True, made.shows[2])
    yield Kind("no damage", content, None, end, False, left)
    yield Kind("no damage, no zeros ahead", content[: end + 1], None, end, False, left)
    yield Kind("no damage, longer than a journal", Sparse(END + 64 * MIB, (0, content)), None, end, False, left)
    yield Kind("no damage, no entry", HEADER + b"\0", None, 8, False, "")
    for gate in (0, 7, 255):
        stopped = over(content, end, bytes([gate]) + entry + b"\0")
        yield Kind(f"a stop within an append, its gate {gate:02x}", stopped, None, end, False, left)
        yield Kind(f"a stop within an append, its gate {gate:02x} and half its body", stopped[: end + 9], None, end, False, left)
        yield Kind(f"a stop within an append, its gate {gate:02x} alone", stopped[: end + 1], None, end, False, left)


def is_listed(stand, kind):
    """Whether the list says what is wanted, names the offset of status 7 where it sees damage, and its lines are the file, one behind the other."""
    run, at, end, named = stand.gates(), 0, None, not (kind.said and kind.seen)
    for line in run.stdout.splitlines():
        words = line.split()
        if all(word.isdigit() for word in words[:2]):
            at = at + int(words[1]) if int(words[0]) == at else -1
            named = named or words[0] == str(kind.said) and words[2] == "cut:" or f"no entry from {kind.said} on" in line
        elif "the last ends at" in line:
            end = int(words[-1])
    return (run.returncode, at) == (kind.seen, len(kind.content)) and kind.end in (None, end) and named


def way_of(stand, offset):
    """The words of the copy that docs/OPERATING.md wants: by what the script says, and the offset of status 7."""
    listed = stand.gates()
    for line in listed.stdout.splitlines():
        if "the gate is not open, and leads to" in line:
            return "--open", line.split()[2].rstrip(":")
    return ("--cut",) if listed.returncode else ("--close", offset)


def copied(program, stand, words, wrong):
    """The stand of a copy. Written over the copy, or over what it is of, it is refused."""
    copy, before = Stand(program), digest(stand.journal)
    first = stand.gates(*words, copy.journal)
    if first.returncode != 0:
        wrong.append(f"{words} writes nothing: {first.stderr}")
        return None
    after = digest(copy.journal)
    if [stand.gates(*words, out).returncode for out in (copy.journal, stand.journal)] != [2, 2]:
        wrong.append(f"{words} writes twice")
    if (digest(stand.journal), digest(copy.journal)) != (before, after):
        wrong.append(f"{words} changes a file that was there")
    return copy


def lead_back(program, kind, stand, by_close, wrong):
    """Copies until `show` has no fault, or as a whole journal is cut; the words of each."""
    ways = []
    while len(ways) < MOST_COPIES:
        _, offset, _ = stand.show()
        if ways and offset is None:
            break
        words = ("--close", offset) if by_close else ("--cut",) if not kind.seen and offset is None else way_of(stand, offset)
        stand = copied(program, stand, words, wrong)
        ways.append(words[0])
        if stand is None:
            return ways
    if stand.show() != (0, None, kind.left):
        wrong.append(f"behind {ways} show says {stand.show()}")
    goes_on(stand, kind, wrong)
    return ways


def goes_on(stand, kind, wrong):
    """A session opens the copy, and a next one has a job accepted, as the one behind those that are left."""
    jobs = kind.left.count("job ")
    opened = stand.session()
    # what was cut away may have ended a ban
    stand.session(END_OF_BAN)
    answers = [opened, stand.session(("POST /jobs", one_file(stand, "new")))]
    status, _, shown = stand.show()
    if answers != [([], 0), ([200], 0)] or status != 0 or shown.count("job ") != jobs + 1 or f"job {ID.format(jobs + 1)} FINISHED" not in shown:
        wrong.append(f"sessions do not go on: {answers}, {status}, {shown}")


def refuses(stand, *several):
    """Whether each of these copies is refused, and there is none."""
    out = stand.path / "out"
    return [stand.gates(*words, out).returncode for words in several] == [2] * len(several) and not out.exists()


def tried(program, kind):
    """The copies that lead back, and what is otherwise than wanted."""
    stand, wrong, ways = Stand(program, kind.content), [], []
    before = digest(stand.journal)
    status, offset, _ = stand.show()
    if (status, offset) != ((0, None) if kind.said is None else (7, kind.said)):
        wrong.append(f"show ends with {status} at {offset}")
    if not is_listed(stand, kind):
        wrong.append("the script says " + stand.gates().stdout)
    if kind.left is None:
        if not refuses(stand, ["--cut"], ["--close", 0], ["--open", 0]):
            wrong.append("there is a copy of no journal")
    else:
        ways = lead_back(program, kind, stand, False, wrong)
        if kind.said:
            lead_back(program, kind, stand, True, wrong)
        if not refuses(stand, ["--close", len(kind.content) + 1], *[["--open", kind.end]] * ("--open" not in ways)):
            wrong.append("there is a copy with another gate")
    if digest(stand.journal) != before:
        wrong.append("the journal was changed")
    return ways, wrong


def change_bytes(program, made):
    """Each byte that is in use, once with one bit changed and once as 01: how many journals, and what is otherwise."""
    sys.dont_write_bytecode = True
    module = importlib.util.spec_from_file_location("journal_gates", SCRIPT)
    script = importlib.util.module_from_spec(module)
    module.loader.exec_module(script)
    stand, count, wrong = Stand(program), 0, []
    for at in range(made.ends[3]):
        for value in {made.content[at] ^ 1 << at % 8, 1} - {made.content[at]}:
            content = over(made.content[: made.ends[3] + 1], at, bytes([value]))
            stand.journal.write_bytes(content)
            status, offset, _ = stand.show()
            count += 1
            if status not in (0, 7) or offset not in offsets(script, content):
                wrong.append(f"{value:02x} at {at}: show ends with {status} at {offset}")
    return count, wrong


def offsets(script, content):
    """Those that status 7 may name, by what the script sees. Of a rule that joins fields, which is named by the first of them, it sees nothing."""
    journal = script.Journal(script.Content(io.BytesIO(content)))
    journal.read()
    if not journal.has_header:
        return [0]
    if journal.cut:
        return [journal.gate]
    entries = list(script.entries_from(journal.content, FIRST_GATE))
    for entry in entries:
        if entry.fault is not None:
            return [entry.fault, first_joined(script, content, entry)]
    return [None] + [offset for entry in entries for offset in (entry.gate, first_joined(script, content, entry))]


def first_joined(script, content, entry):
    """The first field of an entry that a rule may join with others: the one behind its moment, and behind the hours of a submission with hours."""
    body, at = content[entry.gate + 5 : entry.end], 0
    for field in ("u32", "command", "u64", "hours"):
        found = script.FIELDS[field](body, at) if field != "hours" or entry.command == script.COMMANDS[11][0] else None
        if found is None:
            break
        at = found[1]
    return entry.gate + 5 + at


def main():
    program = pathlib.Path(sys.argv[1]).resolve()
    made, count, others = Made(program), 0, 0
    for kinds in (no_journals, cuts, no_entries, refusals, journals):
        for kind in kinds(made):
            ways, wrong = tried(program, kind)
            said = "0" if kind.said is None else f"7 at {kind.said}"
            back = f"{', '.join(ways)}: {kind.left.count('job ')} of 7 jobs" if ways else "no way back"
            print(f"{kind.name}: show {said}; {back}", flush=True)
            for what in wrong:
                print(f"  OTHERWISE: {what}", flush=True)
            count, others = count + 1, others + bool(wrong)
    changed, wrong = change_bytes(program, made)
    print(f"one byte changed: {changed} journals, another offset than the script's {len(wrong)}")
    for what in wrong:
        print(f"  OTHERWISE: {what}")
    count, others = count + 1, others + bool(wrong)
    print(f"kinds {count}, otherwise than wanted {others}")
    return 1 if others or not count else 0


if __name__ == "__main__":
    sys.exit(main())
