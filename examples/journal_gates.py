#!/usr/bin/env python3
"""The gates of a journal: what stands where, where the last whole entry ends, and copies that open again.

    journal_gates.py JOURNAL                     lists what stands in it
    journal_gates.py JOURNAL --cut OUT           writes what stands before the first damage, and a closed gate
    journal_gates.py JOURNAL --close OFFSET OUT  writes all of it, with the gate closed of the entry that has this offset
    journal_gates.py JOURNAL --open OFFSET OUT   writes all of it, with this gate open: one that stands closed before open ones
    journal_gates.py JOURNAL --deletes ..        the same of a journal of deletions, `fts.deletes`, whose entries are events

Each line of the list is an offset, how many bytes it is to the next line, and what they are. The last lines say how many entries are whole, where
the last of them ends, and each damage. An entry is whole where each of its fields is; whether it is accepted `fts STAND show` says alone, or
of deletions `fts STAND delete`.
JOURNAL is only read, and no file that is there is written over. It is read piece by piece, so a great one needs no more memory than a small one.
An entry is a body that a service reads; whether a service would append it at its place, as no submission behind a journal's first limit, is no
question here. Python's standard library is enough. The formats are those of
docs/FORMATS.md, "Journal", "Entries" and "Deletions"; which copy is wanted after which damage stands in docs/OPERATING.md, "When it is damaged".
The status is 0 where there is no damage, or OUT is written; 1 where there is damage; 2 where nothing could be read or written.
"""
import argparse
import collections
import itertools
import os
import re
import signal
import sys

HEADER = b"FTS3JRN1"
FIRST_GATE = len(HEADER)
CLOSED, OPEN = b"\0", b"\1"
FRONT_BYTES = 5  # a gate and a length
MAX_BODY_BYTES = 4_194_304
JOURNAL_END = 1_073_741_824  # each gate stands below
WINDOW = 1_048_576  # so many bytes are read at once, and more only of a body that has more

# An endpoint's name, a path on one, and a label.
SEGMENT = rb"(?!\.\.?(?:/|\Z))[!-$&-.0-~]+"
NAME = re.compile(rb"(?=.{1,1024}\Z)[a-z][a-z0-9+.-]*://[!-$&-.0-~]+")
PATH = re.compile(rb"(?=.{1,1024}\Z)(?!\.fts(?:/|\Z))%b(?:/%b)*" % (SEGMENT, SEGMENT))
LABEL = re.compile(rb".{1,255}", re.DOTALL)

# What an entry begins with: of a journal of transfers who wrote it, and of deletions its kind alone.
TRANSFERS, DELETIONS = ("u32", "command"), ("event",)

Entry = collections.namedtuple("Entry", "gate end command fault")
Piece = collections.namedtuple("Piece", "offset length kind")

# Whole entries, one behind the other: the first gate, where the last ends, and how many there are of each command.
Run = collections.namedtuple("Run", "gate end commands")


class Refused(Exception):
    """Nothing was written, and why."""


class Content:
    """The bytes of a file that a service reads: those below the journal's end. One window of them is kept. An entry begins with these fields."""

    def __init__(self, file, first=TRANSFERS):
        self.file, self.first = file, first
        self.size = file.seek(0, os.SEEK_END)
        self.start, self.window = 0, b""

    def __len__(self):
        return min(self.size, JOURNAL_END)

    def load(self, start, end):
        """Has these bytes, which there are, in the window."""
        if not self.start <= start <= end <= self.start + len(self.window):
            self.file.seek(start)
            self.start, self.window = start, self.file.read(min(max(WINDOW, end - start), len(self) - start))
            if len(self.window) < end - start:
                raise OSError("the file became shorter")

    def piece(self, start, end):
        """The bytes from start to end, or to the last one."""
        end = min(end, len(self))
        if start >= end:
            return b""
        self.load(start, end)
        return self.window[start - self.start : end - self.start]

    def pieces(self, start, end):
        """The same, a window at a time."""
        for at in range(start, end, WINDOW):
            yield self.piece(at, min(at + WINDOW, end))

    def find(self, byte, start, end):
        """The first place of a byte in this range, or None."""
        while start < end:
            self.load(start, start + 1)
            place = self.window.find(byte, start - self.start, end - self.start)
            if place >= 0:
                return self.start + place
            start = self.start + len(self.window)
        return None

    def zeros_from(self, start, end):
        """Where the zeros begin that end this range."""
        while start < end:
            at = max(start, end - WINDOW)
            if rest := self.piece(at, end).rstrip(CLOSED):
                return at + len(rest)
            end = at
        return start


# A field is read by a function of a body and a place: its value and the place behind it, or None where it is not spelled.


def number(low, high):
    """Unsigned LEB128 in its shortest form, in this range."""

    def read(body, at):
        value = 0
        for count, digit in enumerate(body[at : at + 10]):
            value |= (digit & 127) << 7 * count
            if digit < 128:
                is_shortest = digit > 0 or count == 0
                return (value, at + count + 1) if is_shortest and low <= value <= high else None
        return None

    return read


def some(count):
    """So many bytes."""
    return lambda body, at: (body[at : at + count], at + count) if at + count <= len(body) else None


def one_of(values):
    """One of these bytes."""
    return lambda body, at: (body[at], at + 1) if at < len(body) and body[at] in values else None


def text(form):
    """A length, and so many bytes of UTF-8 in this form."""

    def read(body, at):
        length = number(0, MAX_BODY_BYTES)(body, at)
        found = length and some(length[0])(body, length[1])
        try:
            return found if found and form.fullmatch(found[0]) and found[0].decode() else None
        except UnicodeDecodeError:
            return None

    return read


def option(count):
    """A flag, and behind 01 so many bytes."""

    def read(body, at):
        flag = one_of((0, 1))(body, at)
        return some(count)(body, flag[1]) if flag and flag[0] else flag

    return read


COMMANDS = {
    1: ("restart", "u64 label workers limit endpoints links activities"),
    2: ("submit", "u64 kind strategy option priority retries delay flag files"),
    3: ("cancel job", "u64 u32"),
    4: ("cancel file", "u64 u32 u32"),
    5: ("set priority", "u64 u32 priority"),
    6: ("claim", "u64 word"),
    7: ("report", "u64 u32 u32 outcome"),
    8: ("ban", "u64 name flag"),
    9: ("unban", "u64 name"),
    10: ("expire", "u64"),
    11: ("submit with hours", "u64 hours kind strategy option priority retries delay flag files"),
}
EVENTS = {1: ("ask", "places"), 2: ("gone", "u32"), 3: ("missed", "u32")}
OUTCOMES = {0: "u64 digest", 1: "", 2: "", 3: "u64", 4: "digest", 5: "u64", 6: "", 7: ""}
LISTS = {
    "endpoints": "name limit limit",
    "links": "label name name limit",
    "activities": "label weight",
    "files": "u32 name path name path size option label",
    "places": "name path",
}
FIELDS = {
    "u32": number(0, 2**32 - 1),
    "u64": number(0, 2**64 - 1),
    "size": number(0, 2**63 - 1),
    "workers": number(1, 16),
    "limit": number(1, 1_000),
    "weight": number(1, 10_000),
    "priority": number(1, 5),
    "retries": number(0, 10),
    "delay": number(0, 86_400),
    "hours": number(1, 8_760),
    "endpoints": number(1, 256),
    "links": number(0, 1_024),
    "activities": number(0, 64),
    "files": number(1, 200),
    "places": number(1, 200),
    "name": text(NAME),
    "path": text(PATH),
    "label": text(LABEL),
    "kind": one_of((0, 1, 2)),
    "strategy": one_of((0, 1)),
    "flag": one_of((0, 1)),
    "command": one_of(COMMANDS),
    "event": one_of(EVENTS),
    "outcome": one_of(OUTCOMES),
    "option": option(16),
    "digest": some(16),
    "word": some(8),
}


KINDS = {"command": COMMANDS, "event": EVENTS}


def fields_behind(field, value):
    """The fields that follow because of this one: a command's, an event's, an outcome's, those of a list's items."""
    if field in KINDS:
        return KINDS[field][value][1].split()
    if field == "outcome":
        return OUTCOMES[value].split()
    return LISTS[field].split() * value if field in LISTS else []


def read_entry(body, first):
    """The name of its command or event, and the place of the first field that is not spelled, or None where each is."""
    command, fields, at = "no command", list(reversed(first)), 0
    while fields:
        field = fields.pop()
        found = FIELDS[field](body, at)
        if found is None:
            return command, at
        value, at = found
        command = KINDS[field][value][0] if field in KINDS else command
        fields += reversed(fields_behind(field, value))
    return command, at if at < len(body) else None


def cut_at(content, gate):
    """Why no whole body stands behind this gate, or None where one does."""
    size = content.piece(gate + 1, gate + FRONT_BYTES)
    length = int.from_bytes(size, "little")
    if gate >= len(content):
        return "the file ends where a gate is due"
    if len(size) < FRONT_BYTES - 1:
        return "the file ends in the length of a body"
    if not 1 <= length <= MAX_BODY_BYTES:
        return f"a body of {length} bytes, and one has 1 to {MAX_BODY_BYTES}"
    if gate + FRONT_BYTES + length >= JOURNAL_END:
        return f"a body of {length} bytes, and the gate behind it would not stand below {JOURNAL_END}"
    if gate + FRONT_BYTES + length > len(content):
        return f"the file ends in a body of {length} bytes"
    return None


def entry_at(content, gate):
    """What the whole body behind this gate is, whether the gate is open or not. A fault is told by its offset in the file."""
    start = gate + FRONT_BYTES
    end = start + int.from_bytes(content.piece(gate + 1, start), "little")
    command, place = read_entry(content.piece(start, end), content.first)
    return Entry(gate, end, command, None if place is None else start + place)


def entries_from(content, gate):
    """Those behind open gates, one after the other, from this gate on."""
    while content.piece(gate, gate + 1) == OPEN and not cut_at(content, gate):
        entry = entry_at(content, gate)
        yield entry
        gate = entry.end


def run_from(content, gate):
    """The whole entries from this gate on, up to one that is no entry; None where the first is none."""
    commands, end = collections.Counter(), gate
    for entry in itertools.takewhile(lambda entry: entry.fault is None, entries_from(content, gate)):
        commands[entry.command] += 1
        end = entry.end
    return Run(gate, end, commands) if commands else None


def next_run(content, at, end):
    """The run from the first open gate on that stands in this range and has one; None where there is no such gate."""
    while (at := content.find(OPEN, at, end)) is not None:
        if run := run_from(content, at):
            return run
        at += 1
    return None


def runs_from(content, at, end):
    """The runs whose first gate stands in this range, but for those within others."""
    while run := next_run(content, at, end):
        yield run
        at = run.end


def counted(commands):
    """How many entries, and how many of each command."""
    total = sum(commands.values())
    names = ", ".join(f"{count} {name}" for name, count in sorted(commands.items()))
    return f"{total} whole {'entry' if total == 1 else 'entries'}" + f" ({names})" * bool(total)


class Journal:
    """What stands in the bytes of a journal. All but `pieces` and `read` tell of what these went over."""

    def __init__(self, content):
        self.content = content
        self.has_header = content.piece(0, FIRST_GATE) == HEADER
        # the whole entries up to the first that is none, which has this gate, and the whole ones behind it
        self.whole = Run(FIRST_GATE, FIRST_GATE, collections.Counter())
        self.fault = None
        self.behind = collections.Counter()
        # the gate at which a service's reading ends, why it is no good end, and the whole entry behind it that does not count
        self.gate, self.cut, self.uncounted = FIRST_GATE, None, None
        # the whole entries behind open gates to which that gate does not lead
        self.unreached = []

    def read(self):
        """Goes over all of the file."""
        collections.deque(self.pieces(), 0)

    def pieces(self):
        """All of the file, piece after piece."""
        yield Piece(0, min(FIRST_GATE, len(self.content)), "header" if self.has_header else "another header")
        for entry in entries_from(self.content, FIRST_GATE):
            self.add(entry)
            kind = f"open: {entry.command}" if entry.fault is None else f"open: no entry from {entry.fault} on"
            yield Piece(entry.gate, entry.end - entry.gate, kind)
        yield from self.end_of_reading()
        yield from self.behind_reading()
        if len(self.content) < self.content.size:
            yield Piece(len(self.content), self.content.size - len(self.content), "never read")

    def add(self, entry):
        """Counts one more behind an open gate."""
        self.gate = entry.end
        if self.fault is None and entry.fault is None:
            self.whole = self.whole._replace(end=entry.end)
            self.whole.commands[entry.command] += 1
        elif entry.fault is None:
            self.behind[entry.command] += 1
        elif self.fault is None:
            self.fault = entry.gate

    def end_of_reading(self):
        """The last gate, with an entry behind it where that does not count."""
        cut = cut_at(self.content, self.gate)
        if self.content.piece(self.gate, self.gate + 1) in (b"", OPEN):
            self.cut = cut
        elif not cut:
            entry = entry_at(self.content, self.gate)
            self.uncounted = entry if entry.fault is None else None
        if self.gate <= len(self.content):
            length = min(self.rest(), len(self.content)) - self.gate
            yield Piece(self.gate, length, f"cut: {self.cut}" if self.cut else self.kind_of_last())

    def rest(self):
        """Where the bytes begin that no gate leads to."""
        return self.uncounted.end if self.uncounted else self.gate + 1

    def behind_reading(self):
        """Those bytes, with the entries that stand among them."""
        at = self.rest()
        for run in runs_from(self.content, at, self.content.zeros_from(at, len(self.content))):
            self.unreached.append(run)
            yield from self.between(at, run.gate)
            yield Piece(run.gate, run.end - run.gate, f"unreached: {counted(run.commands)}")
            at = run.end
        yield from self.between(at, len(self.content))

    def kind_of_last(self):
        """What the last gate is, where it isn't open."""
        value = self.content.piece(self.gate, self.gate + 1)[0]
        kind = "closed" if value == 0 else f"other byte {value:02x}, as closed"
        return kind + f", and behind it a whole entry that does not count: {self.uncounted.command}" if self.uncounted else kind

    def between(self, start, end):
        """Bytes that are no entries: those before the zeros that end them, and these zeros."""
        zeros = self.content.zeros_from(start, end)
        if start < zeros:
            yield Piece(start, zeros - start, "other bytes")
        if zeros < end:
            yield Piece(zeros, end - zeros, "zeros ahead" if end == len(self.content) and not self.cut else "zeros")

    def is_shut_out(self):
        """Whether the last gate is not open, and the entry behind it leads to open gates: so it was open once."""
        return bool(self.uncounted and self.unreached and self.unreached[0].gate == self.uncounted.end)

    def damages(self):
        """A sentence for each damage."""
        if len(self.content) <= FIRST_GATE:
            yield f"no journal: {len(self.content)} bytes, and one has 9 at least"
            return
        if not self.has_header:
            yield f"no journal: it begins with {self.content.piece(0, FIRST_GATE)!r} and not with {HEADER!r}"
        for entry in self.no_entries():
            yield f"damage at {entry.gate}: the gate is open, and the body behind it is no entry from {entry.fault} on"
        if self.cut:
            yield f"damage at {self.gate}: {self.cut}"
        if self.is_shut_out():
            count = 1 + sum(self.unreached[0].commands.values())
            yield f"damage at {self.gate}: the gate is not open, and leads to {count} entries that a service does not see"
        for run in self.unreached[self.is_shut_out() :]:
            count = sum(run.commands.values())
            yield f"damage before {run.gate}: no gate leads to the {count} entries from there on, and a service does not see them"

    def no_entries(self):
        """Those behind open gates that are none."""
        if self.fault is not None:
            yield from (entry for entry in entries_from(self.content, self.fault) if entry.fault is not None)

    def behind_damage(self):
        """How many whole entries of each command stand behind the first damage."""
        behind = self.behind + collections.Counter([self.uncounted.command] if self.is_shut_out() else [])
        return sum((run.commands for run in self.unreached), behind)

    def as_cut(self):
        """What stands before the first damage behind the header of a journal, and a closed gate."""
        end = self.whole.end
        if end == FIRST_GATE and (not self.has_header or len(self.content) <= FIRST_GATE):
            raise Refused("it is no journal, and no whole entry stands in it")
        pieces = itertools.chain([HEADER], self.content.pieces(FIRST_GATE, end), [CLOSED])
        return pieces, f"{counted(self.whole.commands)}, and a closed gate at {end}"

    def as_closed(self, offset):
        """All of it, where the gate is closed of the entry that has this offset or its fault there, or the one of a cut."""
        entries = entries_from(self.content, FIRST_GATE)
        gate = next((entry.gate for entry in entries if entry.fault == offset or entry.gate <= offset < entry.end), None)
        if gate is None and not (self.cut and offset == self.gate):
            raise Refused(f"no entry behind an open gate has the offset {offset}")
        gate = self.gate if gate is None else gate
        return self.with_gate(gate, CLOSED), f"the gate at {gate} is closed"

    def as_open(self, offset):
        """All of it, where this gate is open: the last one, where the entry behind it leads to open ones. Another one was never acknowledged."""
        if offset != self.gate or not self.is_shut_out():
            raise Refused(f"no gate that leads to open ones stands closed at {offset}")
        return self.with_gate(offset, OPEN), f"the gate at {offset} is open"

    def with_gate(self, offset, gate):
        return itertools.chain(self.content.pieces(0, offset), [gate], self.content.pieces(offset + 1, len(self.content)))


def show(journal):
    """Prints the list, and says whether there is no damage."""
    for piece in journal.pieces():
        print(f"{piece.offset:>10} {piece.length:>10}  {piece.kind}")
    print(f"{counted(journal.whole.commands)}, the last ends at {journal.whole.end}")
    is_whole = True
    for damage in journal.damages():
        print(damage)
        is_whole = False
    if behind := journal.behind_damage():
        print(f"behind the first damage: {counted(behind)}")
    return is_whole


def write_new(path, pieces):
    """A file that was not there, and how many bytes it has; where it can't be written whole, it is not there."""
    with open(path, "xb") as out:
        try:
            length = sum(map(out.write, pieces))
            out.flush()
            os.fsync(out.fileno())
            return length
        except BaseException:
            os.unlink(path)
            raise


def copy_of(journal, words):
    """Where a copy is wanted, what it has, piece by piece, and that in words."""
    journal.read()
    if words.cut:
        return words.cut, *journal.as_cut()
    if words.close:
        return words.close[1], *journal.as_closed(int(words.close[0]))
    return words.open[1], *journal.as_open(int(words.open[0]))


def read_words():
    words = argparse.ArgumentParser(description=__doc__, formatter_class=argparse.RawDescriptionHelpFormatter)
    words.add_argument("journal", metavar="JOURNAL")
    words.add_argument("--deletes", action="store_const", const=DELETIONS, default=TRANSFERS)
    copies = words.add_mutually_exclusive_group()
    copies.add_argument("--cut", metavar="OUT")
    copies.add_argument("--close", nargs=2, metavar=("OFFSET", "OUT"))
    copies.add_argument("--open", nargs=2, metavar=("OFFSET", "OUT"))
    return words.parse_args()


def main():
    signal.signal(signal.SIGPIPE, signal.SIG_DFL)
    words = read_words()
    try:
        with open(words.journal, "rb") as file:
            journal = Journal(Content(file, words.deletes))
            if not (words.cut or words.close or words.open):
                return 0 if show(journal) else 1
            out, pieces, what = copy_of(journal, words)
            length = write_new(out, pieces)
    except (OSError, ValueError, Refused) as fault:
        print(f"nothing is read or written: {fault}", file=sys.stderr)
        return 2
    print(f"{out}: {length} bytes, {what}")
    return 0


if __name__ == "__main__":
    sys.exit(main())
