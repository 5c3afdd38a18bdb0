#!/usr/bin/env python3
"""Inputs that are hostile by size, depth, number or repetition, for each kind of text that comes from outside: heads, JSON documents, URLs,
queries, settings and journals.

acceptance/hostile.py PROGRAM [KIND]: PROGRAM is fts as it was built; KIND is one of head, document, url, query, settings and journal. Heads,
documents, URLs and queries are handed to `PROGRAM - session`, which keeps its stand in memory; settings lie in a folder that a session is begun over, and
journals in one whose tables are shown. Each input is tried, and one of the same kind that is twice as large. Every reply has to have the status and
the rule that docs/API.md has for it, the process its status, and its note the rule of settings or the offset of damage of docs/OPERATING.md.

The processor time of the larger one may be at most 2.5 times that of the smaller; both are the least of several runs, taken in turns, start and end
of the process among them. The most memory of a run may be at most that of its kind (`MOST`). A request that ends the connection stands once in its
input, and any other is repeated, with the same bytes each time.
"""
import json
import os
import pathlib
import re
import subprocess
import sys
import tempfile

RATIO = 2.5
# so many runs of both sizes, and as many again where they differ by more, up to so often
RUNS, TRIES = 3, 10
# MiB of a process at most, by the kind of its text: start, room of a connection and what is read there
MOST = {"head": 16, "document": 32, "url": 16, "query": 16, "settings": 48, "journal": 256}
# a request behind one that ends the connection: it is not answered
BEHIND = b"GET /jobs HTTP/1.1\r\n\r\n"
RESPONSE = re.compile(rb"HTTP/1\.1 (\d{3}) [^\r\n]*\r\n(?:[^\r\n]+\r\n)*?Content-Length: (\d+)\r\n(?:[^\r\n]+\r\n)*\r\n")
URLS = b'"sources":["%s"],"destinations":["https://b.example/b"]'


class Row:
    """Requests of one kind: how one is made of a size, the smaller size, how often it stands in an input, and what is answered to it."""

    def __init__(self, kind, name, make, size, times, status, rule=None, ends=0):
        self.kind, self.name, self.make, self.size, self.times = kind, name, make, size, times
        # the status of the process, which is 0 where the request does not end the connection
        self.status, self.rule, self.ends = status, rule, ends

    def input(self, size):
        return self.make(size) * self.times + (BEHIND * 100 if self.ends else b"")

    def wanted(self, size):
        return [(self.status, self.rule)] * self.times

    def play(self, program, folder, size):
        """Lays the input in the folder, and gives the words of the run and its length."""
        text = self.input(size)
        (folder / "input").write_bytes(text)
        return [program, "-", "session"], len(text)

    def answer(self):
        return f"{self.status} rule {self.rule}" if self.rule else str(self.status)

    def fault_of(self, size, ran):
        """What is otherwise than wanted in a run's replies and its status; None where nothing is."""
        found, wanted = replies(ran.output), self.wanted(size)
        if found != wanted:
            place = next((n for n, (one, other) in enumerate(zip(found, wanted)) if one != other), min(len(found), len(wanted)))
            return f"{len(found)} replies for {len(wanted)}, otherwise from reply {place + 1}: {found[place:place + 1]}"
        return None if ran.status == self.ends else f"ended with status {ran.status}"


class Repeated(Row):
    """A request of one size, of which the size of an input is the number."""

    def input(self, size):
        return self.make(size) * size

    def wanted(self, size):
        return [(self.status, self.rule)] * size


class Settings(Row):
    """A text of settings, and the rule that it breaks; none where it breaks none."""

    def __init__(self, name, make, size, rule=None):
        super().__init__("settings", name, make, size, 1, 0, rule)

    def play(self, program, folder, size):
        text = self.make(size)
        (folder / "fts.toml").write_bytes(text)
        (folder / "fts.journal").unlink(missing_ok=True)
        (folder / "input").write_bytes(b"")
        return [program, str(folder), "session"], len(text)

    def answer(self):
        return f"rule {self.rule}" if self.rule else "none broken"

    def fault_of(self, size, ran):
        wanted = (3, f"fts: settings rule {self.rule}\n".encode()) if self.rule else (0, b"")
        return None if (ran.status, ran.notes) == wanted else f"ended with status {ran.status}, {ran.notes!r}"


class Journal(Row):
    """A journal, and the offset at which it is damaged, or how many lines its tables have."""

    def __init__(self, name, make, size, damage=None, lines=None):
        super().__init__("journal", name, make, size, 1, 0)
        self.damage, self.lines = damage, lines or (lambda n: 0)

    def play(self, program, folder, size):
        text = b"FTS3JRN1" + self.make(size)
        (folder / "fts.toml").write_bytes(STORAGES)
        (folder / "fts.journal").write_bytes(text)
        (folder / "input").write_bytes(b"")
        return [program, str(folder), "show"], len(text)

    def answer(self):
        return "shown" if self.damage is None else "damaged"

    def fault_of(self, size, ran):
        if self.damage is None:
            found, wanted = (ran.status, ran.output.count(b"\n")), (0, self.lines(size))
        else:
            found, wanted = (ran.status, ran.notes), (7, f"fts: journal damaged at {self.damage(size)}\n".encode())
        return None if found == wanted else f"{found} for {wanted}"


STORAGES = b'vo = "demo"\n[[storage]]\nurl = "https://a.example"\n[[storage]]\nurl = "https://b.example"\n'


def head(line, fields=b""):
    return line + b"\r\n" + fields + b"\r\n"


def post(body, path=b"/jobs"):
    return head(b"POST " + path + b" HTTP/1.1", b"Content-Length: %d\r\n" % len(body)) + body


def query(text):
    return head(b"GET /jobs?" + text + b" HTTP/1.1")


def many(item, count):
    return b",".join([item] * count)


def refused(name, make, size, status, rule):
    return Row("head", name, make, size, 1, status, rule, ends=12)


def heads():
    none = b"GET /none HTTP/1.1"
    yield Row("head", "a long target", lambda n: head(b"GET /" + b"a" * n + b" HTTP/1.1"), 8000, 200, 404, 30)
    yield Row("head", "a target of slashes", lambda n: head(b"GET " + b"/" * n + b" HTTP/1.1"), 8000, 200, 404, 30)
    yield Row("head", "a long method", lambda n: head(b"A" * n + b" /jobs HTTP/1.1"), 8000, 200, 405, 33)
    yield Row("head", "a long value", lambda n: head(none, b"A: " + b"b" * n + b"\r\n"), 8000, 200, 404, 30)
    yield Row("head", "a long name", lambda n: head(none, b"A" * n + b": b\r\n"), 8000, 200, 404, 30)
    yield Row("head", "a value of blanks", lambda n: head(none, b"A:" + b" " * n + b"b\r\n"), 8000, 200, 404, 30)
    yield Row("head", "fields of one name", lambda n: head(none, b"Connection: keep-alive\r\n" * n), 32, 1000, 404, 30)
    yield Row("head", "empty lines before it", lambda n: b"\r\n" * n + head(none), 4000, 200, 404, 30)
    yield Row("head", "carriage returns before it", lambda n: b"\r" * n + head(none), 8000, 200, 404, 30)
    yield Repeated("head", "many requests", lambda n: head(b"GET /config/se HTTP/1.1"), 20_000, 1, 200)
    yield Repeated("head", "many requests for a head alone", lambda n: head(b"HEAD /jobs HTTP/1.1"), 20_000, 1, 405)
    yield refused("version 2.0", lambda n: head(b"GET /jobs HTTP/2.0", b"A: " + b"b" * n + b"\r\n"), 8000, 400, 41)
    yield refused("zero bytes", lambda n: b"\0" * n + b"\r\n\r\n", 8000, 400, 41)
    yield refused("a target that is no UTF-8", lambda n: head(b"GET /" + b"\xff" * n + b" HTTP/1.1"), 8000, 400, 41)
    yield refused("folded lines", lambda n: head(none, b"A: b\r\n" + b" c\r\n" * n), 30, 400, 41)
    yield refused("white space before a colon", lambda n: head(none, b"A" + b" " * n + b": b\r\n"), 8000, 400, 41)
    yield refused("more than 64 fields", lambda n: head(none, b"A: b\r\n" * n), 65, 431, 42)
    yield refused("one line without an end", lambda n: b"GET /" + b"a" * n, 8_000_000, 431, 42)
    yield refused("lines without an end", lambda n: none + b"\r\n" + b"A: b\r\n" * n, 1_000_000, 431, 42)
    yield refused("line feeds alone", lambda n: b"\n" * n, 8_000_000, 431, 42)
    yield refused("CR and LF alone", lambda n: b"\r\n" * n, 4_000_000, 431, 42)
    yield refused("a signed length", lambda n: head(none, b"Content-Length: +" + b"3" * n + b"\r\n"), 1, 400, 43)
    yield refused("a length of many digits", lambda n: head(none, b"Content-Length: " + b"0" * n + b"3\r\n"), 8000, 400, 43)
    yield refused("many equal lengths", lambda n: head(none, b"Content-Length: 3\r\n" * n), 32, 400, 43)
    yield refused("a coding and a bad length", lambda n: head(none, b"Content-Length: +3\r\nTransfer-Encoding: " + b"chunked," * n + b"\r\n"), 1000, 501, 44)
    yield refused("a length above the limit", lambda n: head(none, b"Content-Length: 1048577\r\n") + b"a" * n, 4_000_000, 413, 45)
    yield refused("the greatest length", lambda n: head(none, b"Content-Length: " + b"9" * 19 + b"\r\n") + b"a" * n, 4_000_000, 413, 45)


def documents():
    def row(name, body, size, rule, times=8):
        return Row("document", name, lambda n: post(body(n)), size, times, 400, rule)

    yield row("open lists", lambda n: b"[" * n, 500_000, 1)
    yield row("open objects", lambda n: b'{"a":' * n, 100_000, 1)
    yield row("128 lists many times", lambda n: b"[" + many(b"[" * 127 + b"]" * 127, n) + b"]", 2000, 1)
    yield row("127 lists", lambda n: b"[" * 127 + b"0," * n + b"0" + b"]" * 127, 250_000, 2)
    yield row("blanks", lambda n: b" " * n, 500_000, 1)
    yield row("a byte order mark", lambda n: b"\xef\xbb\xbf{" + b" " * n + b"}", 500_000, 1)
    yield row("a text without an end", lambda n: b'"' + b"a" * n, 500_000, 1)
    yield row("bytes that are no UTF-8", lambda n: b'"' + b"\xff" * n + b'"', 500_000, 1)
    yield row("a text of escapes", lambda n: b'"' + b"\\u0041" * n + b'"', 80_000, 2)
    yield row("a text of pairs of surrogates", lambda n: b'"' + b"\\ud83d\\ude00" * n + b'"', 40_000, 2)
    yield row("half a pair of surrogates", lambda n: b'"' + b"a" * n + b'\\ud83d"', 500_000, 1)
    yield row("a list of numbers", lambda n: b"[" + many(b"1", n) + b"]", 250_000, 2)
    yield row("digits behind a point", lambda n: b'{"a":0.' + b"1" * n + b"}", 500_000, 3)
    yield row("one key again and again", lambda n: b"{" + many(b'"a":1', n) + b"}", 80_000, 3)
    yield row("many keys", lambda n: b"{" + b",".join(b'"%06d":1' % k for k in range(n)) + b"}", 40_000, 3)
    yield row("a long key", lambda n: b'{"' + b"a" * n + b'":1}', 500_000, 3)
    yield row("many files", lambda n: b'{"files":[' + many(b"{}", n) + b"]}", 160_000, 4)
    yield row("files that are none", lambda n: b'{"files":[' + many(b"0", n) + b"]}", 100, 5, times=500)
    yield row("many sources", lambda n: b'{"files":[{"sources":[' + many(b'""', n) + b"]}]}", 160_000, 6)
    yield row("many destinations", lambda n: b'{"files":[{"sources":["a"],"destinations":[' + many(b'""', n) + b"]}]}", 160_000, 7)
    yield row("files of an unknown endpoint", lambda n: b'{"files":[' + many(b"{" + URLS % b"https://x.example/a" + b"}", n) + b"]}", 100, 9, times=100)
    itself = b"{" + URLS % b"https://b.example/b" + b"}"
    yield row("files that are copied onto themselves", lambda n: b'{"files":[' + many(itself, n) + b"]}", 100, 10, times=100)
    yield Row("document", "a document for a job that is not there", lambda n: post(b"[" * n, b"/jobs/x"), 500_000, 8, 404, 31)


def urls():
    def row(name, url, size, rule=8, times=200):
        return Row("url", name, lambda n: post(b'{"files":[{' + URLS % url(n) + b"}]}"), size, times, 400, rule)

    yield row("a long URL", lambda n: b"https://a.example/" + b"a" * n, 400_000, times=8)
    yield row("a URL of slashes", lambda n: b"https://a.example" + b"/" * n, 400_000, times=8)
    yield row("a URL of steps up", lambda n: b"https://x.example/" + b"a/../" * n + b"b", 80_000, 9, times=8)
    yield row("a URL of escapes", lambda n: b"https://a.example/" + b"%2e" * n, 150_000, times=8)
    yield row("a long host", lambda n: b"https://" + b"a." * n + b"example/b", 200_000, times=8)
    # these have at most the 1,024 bytes that a URL may have, so each is looked at whole
    yield row("a path of steps up", lambda n: b"https://x.example/" + b"a/../" * (n // 5) + b"b", 480, 9)
    yield row("a path of escapes", lambda n: b"https://a.example/" + b"%2e" * (n // 3), 480)
    yield row("back slashes", lambda n: b"https://x.example" + b"\\\\" * n + b"b", 480, 9)
    yield row("tabs", lambda n: b"https://x.exam" + b"\\t" * n + b"ple/b", 480, 9)
    yield row("a scheme of letters", lambda n: b"a" * n + b"://a.example/b", 480, 9)
    yield row("a host of labels", lambda n: b"https://" + b"a." * (n // 2) + b"example/b", 480, 9)
    yield row("a host of dots", lambda n: b"https://" + b"." * n + b"/b", 480, 9)
    yield row("a host of escapes", lambda n: b"https://" + b"%61" * (n // 3) + b"/b", 480)
    yield row("a host of letters beyond ASCII", lambda n: b"https://" + "\u00fc.".encode() * (n // 3) + b"example/b", 480)
    yield row("a host of combining marks", lambda n: b"https://a" + "\u0301\u0316".encode() * (n // 4) + b".example/b", 480, 9)
    yield row("a label of Punycode", lambda n: b"https://xn--" + b"9" * n + b".example/b", 480, 9)
    yield row("a number as a host", lambda n: b"https://0x" + b"0" * n + b"1/b", 480, 9)
    yield row("an address of colons", lambda n: b"https://[" + b":" * n + b"]/b", 480)
    yield row("a port of zeros", lambda n: b"https://x.example:" + b"0" * n + b"1/b", 480, 9)
    yield row("many users", lambda n: b"https://" + b"u@" * (n // 2) + b"a.example/b", 480)


def queries():
    def row(name, text, size, status=400, rule=None, times=200):
        return Row("query", name, lambda n: query(text(n)), size, times, status, rule)

    yield row("separators alone", lambda n: b"&" * n, 8000, 200)
    yield row("many names", lambda n: b"a&" * n, 4000, 200)
    yield row("a name again and again", lambda n: b"limit=1&" * n, 900, 200)
    yield row("a long name", lambda n: b"a" * n + b"=1", 8000, 200)
    yield row("an escaped name again and again", lambda n: b"%6Cimit=1&" * n, 780, 200)
    yield row("many states", lambda n: b"state_in=" + many(b"ACTIVE", n), 1000, 200)
    yield row("a comma too many", lambda n: b"state_in=" + b"ACTIVE," * n, 1000, 400, 25)
    yield row("commas alone", lambda n: b"state_in=" + b"," * n, 8000, 400, 25)
    yield row("states of escapes", lambda n: b"state_in=" + b"%41" * n, 2500, 400, 25)
    yield row("bytes that are no UTF-8", lambda n: b"state_in=" + b"%FF" * n, 2500, 400, 25)
    yield row("half escapes", lambda n: b"state_in=" + b"%" * n, 8000, 400, 25)
    yield row("a limit of many digits", lambda n: b"limit=" + b"0" * n + b"1", 8000, 400, 26)
    yield row("a limit of escapes", lambda n: b"limit=" + b"%31" * n, 2500, 400, 26)
    yield row("question marks", lambda n: b"limit=" + b"?" * n, 8000, 400, 26)


def settings():
    def row(name, text, size, rule=None):
        return Settings(name, text, size, rule)

    def named(front, count, back):
        return b"".join(front + b"%06d" % k + back for k in range(count))

    storage = b'[[storage]]\nurl = "https://%d.example"\n'
    link = b'[[link]]\nsource = "https://a.example"\ndestination = "https://c.example"\nmax_active = 1\n'
    yield row("comments", lambda n: b"#\n" * n + STORAGES, 250_000)
    yield row("a long comment", lambda n: b"#" * n + b"\n" + STORAGES, 500_000)
    yield row("empty lines", lambda n: b"\n" * n + STORAGES, 500_000)
    yield row("more than a MiB", lambda n: STORAGES + b"#" * n, 4_000_000, 13)
    yield row("open lists", lambda n: b"a = " + b"[" * n, 500_000, 1)
    yield row("lists in lists", lambda n: b"a = " + b"[" * n + b"]" * n + b"\n" + STORAGES, 250_000, 1)
    yield row("tables in tables", lambda n: b"a = " + b"{a=" * n + b"1" + b"}" * n + b"\n" + STORAGES, 120_000, 1)
    yield row("a key of names", lambda n: b"a" + b".a" * n + b" = 1\n" + STORAGES, 200_000, 1)
    yield row("a table of names", lambda n: b"[a" + b".a" * n + b"]\n" + STORAGES, 200_000, 1)
    yield row("a list of numbers", lambda n: b"a = [" + many(b"1", n) + b"]\n" + STORAGES, 200_000)
    yield row("a list of lists", lambda n: b"a = [" + many(b"[]", n) + b"]\n" + STORAGES, 150_000)
    yield row("many keys", lambda n: named(b"a", n, b" = 1\n") + STORAGES, 40_000)
    yield row("many keys below one", lambda n: named(b"a.b", n, b" = 1\n") + STORAGES, 35_000)
    yield row("many tables", lambda n: STORAGES + named(b"[a", n, b"]\n"), 40_000)
    yield row("one key again and again", lambda n: b"a = 1\n" * n, 80_000, 1)
    yield row("one table again and again", lambda n: b"[a]\n" * n, 120_000, 1)
    yield row("a long text", lambda n: b'vo = "' + b"a" * n + b'"\n' + STORAGES[12:], 500_000, 14)
    yield row("a text of escapes", lambda n: b'vo = "' + b"\\u0041" * n + b'"\n' + STORAGES[12:], 80_000, 14)
    yield row("a text of lines", lambda n: b'vo = """' + b"\n" * n + b'"""\n' + STORAGES[12:], 500_000, 14)
    yield row("bytes that are no UTF-8", lambda n: b"#" + b"\xff" * n + b"\n" + STORAGES, 500_000, 1)
    yield row("a number of many digits", lambda n: b"workers = " + b"1" * n + b"\n" + STORAGES, 500_000, 1)
    yield row("digits behind a point", lambda n: b"a = 0." + b"1" * n + b"\n" + STORAGES, 500_000)
    yield row("a long URL", lambda n: b'vo = "demo"\n[[storage]]\nurl = "https://' + b"a" * n + b'"\n', 500_000, 4)
    yield row("storages of one name", lambda n: STORAGES + b'[[storage]]\nurl = "https://a.example"\n' * n, 12_000, 5)
    yield row("storages of names of their own", lambda n: STORAGES + b"".join(storage % k for k in range(n)), 12_000, 12)
    yield row("links of one pair, to no storage", lambda n: STORAGES + link * n, 5_000, 6)
    yield row("activities of one name", lambda n: STORAGES + b'[[activity]]\nname = "default"\nweight = 1\n' * n, 12_000, 12)


def number(value):
    out = bytearray()
    while value >= 128:
        out.append(value & 127 | 128)
        value >>= 7
    return bytes(out + bytes([value]))


def body(text):
    return b"\x01" + len(text).to_bytes(4, "little") + text


def journals():
    def entry(kind, fields):
        return body(b"\0" + bytes([kind]) + number(1_700_000_000) + fields)

    def named(text):
        return number(len(text)) + text

    ends = b"".join(named(name) + b"\x14\x14" for name in (b"https://a.example", b"https://b.example"))
    restart = entry(1, named(b"demo") + b"\x01\x02\x02" + ends + b"\0\x01" + named(b"default") + b"\x01")

    def file(index, path):
        return number(index) + named(b"https://a.example") + named(path) + named(b"https://b.example") + named(path) + b"\0\0" + named(b"default")

    def submit(files, path=b"f", own=b"\0"):
        return entry(2, b"\0\0" + own + b"\x03\0\0\0" + number(files) + b"".join(file(index, path) for index in range(files)))

    lowest, at = b"\0", len(restart) + 8
    yield Journal("zeros behind the gate", lambda n: b"\0" * n, 30_000_000)
    yield Journal("bytes behind the gate", lambda n: b"\0" + b"\xff" * n, 30_000_000)
    yield Journal("bodies of a byte", lambda n: body(b"\xff") * n + lowest, 5_000_000, lambda n: 13)
    yield Journal("bodies of zeros", lambda n: body(b"\0" * 4_194_304) * n + lowest, 7, lambda n: 14)
    yield Journal("bodies of a number without an end", lambda n: body(b"\x80" * 4_194_304) * n + lowest, 7, lambda n: 13)
    yield Journal("a body that is cut", lambda n: restart + b"\x01" + (n + 1).to_bytes(4, "little") + b"\0" * n, 2_000_000, lambda n: at)
    yield Journal("a gate at the end of entries", lambda n: restart * n + b"\x01", 300_000, lambda n: 8 + len(restart) * n)
    yield Journal("starts again and again", lambda n: restart * n + lowest, 300_000)
    refused = entry(3, b"\x01") + lowest
    yield Journal("an entry that is refused behind others", lambda n: restart * n + refused, 300_000, lambda n: 8 + len(restart) * n)
    yield Journal("a priority again and again", lambda n: restart + submit(1) + entry(5, b"\x01\x03") * n + lowest, 1_000_000, lines=lambda n: 2)
    yield Journal("jobs of 200 files", lambda n: restart + submit(200, b"f" * 50) * n + lowest, 500, lines=lambda n: 201 * n)
    yield Journal("jobs of one file", lambda n: restart + submit(1) * n + lowest, 50_000, lines=lambda n: 2 * n)
    own = lambda n: b"".join(submit(1, own=b"\1" + k.to_bytes(16, "big")) for k in range(n))
    yield Journal("jobs with ids of their own", lambda n: restart + own(n) + lowest, 10_000, lines=lambda n: 2 * n)


def replies(output):
    """The status and the rule of each response; None for bytes that are no response."""
    found, at = [], 0
    while at < len(output):
        response = RESPONSE.match(output, at)
        if response is None:
            return found + [None]
        end = response.end() + int(response[2])
        body = output[response.end() : end]
        rule = json.loads(body).get("rule") if body.startswith(b"{") else None
        found.append((int(response[1]), rule))
        at = end
    return found


class Ran:
    """What came of a run: its status, its processor time in milliseconds, its most memory in MiB, and what it wrote."""

    def __init__(self, folder, told):
        self.status, self.took, self.most = told
        self.output, self.notes = (folder / "output").read_bytes(), (folder / "notes").read_bytes()


class Launcher:
    """A process that starts programs, and stays small: the system counts to a program's most memory that of the process that it came from."""

    def __init__(self):
        (theirs, self.words), (self.told, ours) = os.pipe(), os.pipe()
        if os.fork() == 0:
            os.close(self.words)
            serve(open(theirs), open(ours, "w"))
            os._exit(0)
        os.close(theirs)
        os.close(ours)
        self.words, self.told = open(self.words, "w"), open(self.told)

    def run(self, words, folder):
        print(json.dumps([words, str(folder)]), file=self.words, flush=True)
        return Ran(folder, json.loads(self.told.readline()))


def serve(asked, answers):
    """Runs the programs that are asked for, one after the other."""
    for line in asked:
        words, folder = json.loads(line)
        with open(f"{folder}/input", "rb") as source, open(f"{folder}/output", "wb") as sink, open(f"{folder}/notes", "wb") as notes:
            process = subprocess.Popen(words, stdin=source, stdout=sink, stderr=notes)
            _, status, used = os.wait4(process.pid, 0)
        told = [os.waitstatus_to_exitcode(status), (used.ru_utime + used.ru_stime) * 1000, used.ru_maxrss / 1024]
        print(json.dumps(told), file=answers, flush=True)


def try_sizes(program, launcher, folders, row):
    """Runs both sizes in turns. What is otherwise than wanted, their lengths, least times and most memory."""
    sizes = (row.size, 2 * row.size)
    words, lengths = zip(*(row.play(program, folder, size) for folder, size in zip(folders, sizes)))
    times, most = [float("inf")] * 2, 0.0
    for _ in range(TRIES):
        for place in [0, 1] * RUNS:
            if row.kind in ("settings", "journal"):
                row.play(program, folders[place], sizes[place])
            ran = launcher.run(words[place], folders[place])
            times[place], most = min(times[place], ran.took), max(most, ran.most)
            if fault := row.fault_of(sizes[place], ran):
                return fault, lengths, times, most
        if times[1] <= RATIO * times[0]:
            break
    return None, lengths, times, most


def try_row(program, launcher, folders, row):
    fault, lengths, times, most = try_sizes(program, launcher, folders, row)
    ratio = times[1] / times[0] if fault is None else 0
    if fault is None and ratio > RATIO:
        fault = "too slow"
    if fault is None and most > MOST[row.kind]:
        fault = "too much memory"
    measured = f"{lengths[0]:>10}{lengths[1]:>10} bytes{times[0]:>9.1f}{times[1]:>9.1f} ms{ratio:>6.2f}{most:>7.1f} MiB"
    print(f"{row.kind:9}{row.name:40}{row.answer():12}{measured}  {fault or 'as wanted'}", flush=True)
    return fault is None


def main():
    launcher = Launcher()
    rows = [row for kind in (heads, documents, urls, queries, settings, journals) for row in kind()]
    rows = [row for row in rows if len(sys.argv) < 3 or row.kind == sys.argv[2]]
    with tempfile.TemporaryDirectory(dir="/dev/shm") as root:
        folders = [pathlib.Path(root) / name for name in ("one", "twice")]
        for folder in folders:
            (folder / "grid").mkdir(parents=True)
        wrong = sum(1 for row in rows if not try_row(os.path.abspath(sys.argv[1]), launcher, folders, row))
    print(f"inputs {len(rows)}, otherwise than wanted {wrong}")
    return 1 if wrong else 0


if __name__ == "__main__":
    sys.exit(main())
