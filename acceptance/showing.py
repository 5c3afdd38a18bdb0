#!/usr/bin/env python3
"""`show` beside a service whose clients submit without pause: a whole journal that grows while it is read is never called damaged.

acceptance/showing.py PROGRAM [SECONDS]: PROGRAM is fts as it was built; shows go on for SECONDS (8 where none is named). Needs Linux: each show is
stopped soon after it began to read, until the journal's file is a MiB longer, as a busy machine may do it to a process. What `show` writes stands
in "Watch" of docs/OPERATING.md. A line that is otherwise says so, and then the status is 1.
"""
import http.client
import json
import pathlib
import signal
import subprocess
import sys
import threading
import time

from serving import A, B, Service

# bytes of the journal before the first show, those that a show reads before it is stopped, and those that come meanwhile
GROWN, READ, MORE = 8 << 20, 300_000, 1 << 20
DAMAGED = 7


def until(holds, seconds):
    """Waits until it holds, at most so many seconds."""
    last = time.monotonic() + seconds
    while time.monotonic() < last and not holds():
        time.sleep(0.001)


def submits(service, number, end):
    """Submits jobs of 40 files with long paths until the end."""
    connection = http.client.HTTPConnection("127.0.0.1", service.port, timeout=30)
    for count in range(1_000_000):
        if end.is_set():
            return
        files = [{"sources": [f"{A}/none"], "destinations": [f"{B}/{'d' * 900}/{number}/{count}/{file}"]} for file in range(40)]
        connection.request("POST", "/jobs", json.dumps({"files": files}).encode())
        answer = connection.getresponse()
        answer.read()
        if answer.status != 200:
            return


def show(service, journal):
    """The status and the line of a show that is stopped while it reads."""
    shown = subprocess.Popen([service.program, str(service.path), "show"], stdout=subprocess.DEVNULL, stderr=subprocess.PIPE)
    counts = pathlib.Path(f"/proc/{shown.pid}/io")
    until(lambda: int(counts.read_text().split()[1]) > READ, 1)
    shown.send_signal(signal.SIGSTOP)
    before = journal.stat().st_size
    until(lambda: journal.stat().st_size > before + MORE, 2)
    shown.send_signal(signal.SIGCONT)
    line = shown.communicate()[1].decode().strip()
    return shown.returncode, line


def shows(service, seconds):
    """What each show ended with, while two clients submit."""
    journal, end, found = service.path / "fts.journal", threading.Event(), []
    clients = [threading.Thread(target=submits, args=(service, number, end), daemon=True) for number in (1, 2)]
    for client in clients:
        client.start()
    until(lambda: journal.stat().st_size > GROWN, 60)
    last = time.monotonic() + seconds
    while time.monotonic() < last:
        found.append(show(service, journal))
    end.set()
    for client in clients:
        client.join(30)
    return found


def main():
    service = Service(sys.argv[1])
    try:
        found = shows(service, float(sys.argv[2]) if len(sys.argv) > 2 else 8.0)
    finally:
        service.stop()
    damaged = [line for status, line in found if status == DAMAGED]
    after = subprocess.run([service.program, str(service.path), "show"], stdout=subprocess.DEVNULL).returncode
    is_well = bool(found) and not damaged and after == 0
    print(f"{len(found)} shows beside a service, of which {len(damaged)} called its journal damaged {damaged[:2]}; behind its end: status {after}"
          + ("" if is_well else "  <-- otherwise than wanted"))
    return 0 if is_well else 1


if __name__ == "__main__":
    sys.exit(main())
