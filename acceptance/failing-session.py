#!/usr/bin/env python3
"""Submissions of one session on a device that fails, or is full, for a moment: each job that was acknowledged has to be there after the next mount.

acceptance/failing-session.py PROGRAM [fails|full [RUNS [SUBMISSIONS]]]: PROGRAM is fts as it was built; 10 runs of 3,000 submissions. Root only, since it
mounts. Status 1 where a job was lost or not answered, where a next start failed, and where no reply at all was 503: then nothing was tried.
The device is that of `failing_device.py`: its writes of new blocks fail (`fails`), or its file system is full (`full`).
Each run begins the trouble at a later submission than the one before, and ends it 20 ms after the first reply of 503. Then come the rest, an unmount,
the dropping of all pages, a mount, a count of the journal's submissions, and a start of the program on what is there.
"""
import os
import re
import struct
import subprocess
import sys
import threading
import time

from failing_device import Device

SETTINGS = 'vo = "demo"\n[[storage]]\nurl = "https://a.example"\n[[storage]]\nurl = "https://b.example"\n'
# so long that some hundred submissions pass a block that was made ready
PATH = "x" * 900
BODY = '{"files":[{"sources":["https://a.example/%s"],"destinations":["https://b.example/%s"]}]}' % (PATH, PATH)
REQUEST = ("POST /jobs HTTP/1.1\r\nContent-Length: %d\r\n\r\n%s" % (len(BODY), BODY)).encode()
RESPONSE = re.compile(rb"HTTP/1.1 (\d+) [^\r]*\r\n(?:[^\r]+\r\n)*?Content-Length: (\d+)\r\n(?:[^\r]+\r\n)*\r\n")


class Session:
    """One session of the program, and what it answered."""

    def __init__(self, program, folder, submissions):
        self.answers = []
        self.process = subprocess.Popen([program, folder, "session"], stdin=subprocess.PIPE, stdout=subprocess.PIPE)
        self.reader = threading.Thread(target=self.read)
        self.writer = threading.Thread(target=self.write, args=(submissions,))
        self.reader.start()
        self.writer.start()

    def read(self):
        kept = b""
        while True:
            piece = self.process.stdout.read1(65536)
            if not piece:
                return
            kept += piece
            while found := RESPONSE.match(kept):
                end = found.end() + int(found[2])
                if len(kept) < end:
                    break
                self.answers.append((int(found[1]), kept[found.end() : end]))
                kept = kept[end:]

    def write(self, submissions):
        for number in range(submissions):
            self.process.stdin.write(REQUEST)
            self.process.stdin.flush()
            while len(self.answers) <= number and self.process.poll() is None:
                time.sleep(0.0002)
            if self.answers[number][0] == 503:
                time.sleep(0.005)
        self.process.stdin.close()

    def end(self):
        self.writer.join()
        self.reader.join()
        return self.process.wait()


def submissions_in(journal):
    at, count = 8, 0
    while journal[at] == 1:
        (length,) = struct.unpack("<I", journal[at + 1 : at + 5])
        # the byte behind the writer, which is 0, is the kind
        count += journal[at + 6] == 2
        at += 5 + length
    return count


def meet_trouble(session, device, begin):
    """Begins the trouble behind so many answers, and ends it 20 ms after the first failure that is answered. The status of the session."""
    while len(session.answers) < begin and session.writer.is_alive():
        time.sleep(0.002)
    device.begin_trouble()
    while session.writer.is_alive() and not any(status == 503 for status, _ in session.answers):
        time.sleep(0.002)
    time.sleep(0.02)
    device.end_trouble()
    return session.end()


def run(program, kind, submissions, begin):
    """How much is otherwise than wanted, and how many submissions were answered 503."""
    with Device(kind) as device:
        with open(f"{device.mount}/fts.toml", "w") as settings:
            settings.write(SETTINGS)
        os.sync()
        session = Session(program, device.mount, submissions)
        status = meet_trouble(session, device, begin)
        device.mount_again()
        ids = [int(re.search(rb'-([0-9a-f]{12})"', body)[1], 16) for status, body in session.answers if status == 200]
        with open(f"{device.mount}/fts.journal", "rb") as journal:
            found = submissions_in(journal.read())
        started = subprocess.run([program, device.mount, "session"], stdin=subprocess.DEVNULL, capture_output=True).returncode
    failed = sum(status == 503 for status, _ in session.answers)
    lost = sum(number > found for number in ids)
    print(f"begun at {begin}: status {status}, acknowledged {len(ids)}, 503 {failed}, found {found}, lost {lost}, next start {started}", flush=True)
    return lost + (started != 0) + (len(ids) + failed != submissions), failed


def main():
    program = os.path.realpath(sys.argv[1])
    kind = sys.argv[2] if len(sys.argv) > 2 else "fails"
    runs = int(sys.argv[3]) if len(sys.argv) > 3 else 10
    submissions = int(sys.argv[4]) if len(sys.argv) > 4 else 3000
    came = [run(program, kind, submissions, number * submissions * 8 // runs // 10) for number in range(runs)]
    wrong, failed = (sum(column) for column in zip(*came))
    print(f"wrong in all: {wrong}, answered 503: {failed}")
    return 1 if wrong or not failed else 0


if __name__ == "__main__":
    sys.exit(main())
