#!/usr/bin/env python3
"""A service at a socket of the file system, by the program as it was built: who reaches it, and what happens to what stands at its path.

acceptance/sockets.py PROGRAM: PROGRAM is fts as it was built. Run as root it also tries another user. Wanted is that requests are answered there as at a
port, that the umask decides who may connect, that the socket of a dead service is replaced, and that neither that of a live one nor another file is.
"""
import http.client
import json
import os
import pathlib
import signal
import socket
import stat
import subprocess
import sys
import tempfile
import time

from serving import A, B, LISTENS, SETTINGS, SETTLED

NOBODY = 65534


class Connection(http.client.HTTPConnection):
    """A connection to a socket's path."""

    def __init__(self, path):
        super().__init__("localhost", timeout=15)
        self.path = path

    def connect(self):
        self.sock = socket.socket(socket.AF_UNIX, socket.SOCK_STREAM)
        self.sock.settimeout(15)
        self.sock.connect(str(self.path))


def ask(path, method, target, body=None):
    connection = Connection(path)
    try:
        connection.request(method, target, body=body)
        answer = connection.getresponse()
        return answer.status, json.loads(answer.read())
    finally:
        connection.close()


def stand(folder):
    folder.mkdir()
    (folder / "fts.toml").write_text(SETTINGS)
    source = folder / "grid" / "https:,,a.example" / "f"
    source.parent.mkdir(parents=True)
    source.write_bytes(b"abc")
    return folder


def serve(program, folder, *words, umask=0o077):
    log = open(folder / "log", "ab")
    return subprocess.Popen([program, str(folder), "serve", *words], stdin=subprocess.DEVNULL, stderr=log, umask=umask)


def listens(process, path):
    last = time.monotonic() + LISTENS
    while process.poll() is None and time.monotonic() < last:
        try:
            return ask(path, "GET", "/jobs")[0] == 200
        except OSError:
            time.sleep(0.02)
    return False


def copies(path, folder):
    """Submits a file and waits for it: what became of it, and what stands at its place."""
    document = {"files": [{"sources": [f"{A}/f"], "destinations": [f"{B}/f"]}]}
    job = ask(path, "POST", "/jobs", json.dumps(document).encode())[1]["job_id"]
    for _ in range(500):
        state = ask(path, "GET", f"/jobs/{job}/files")[1][0]["file_state"]
        if state in SETTLED:
            break
        time.sleep(0.02)
    place = folder / "grid" / "https:,,b.example" / "f"
    return state, place.read_bytes() if place.exists() else None


def is_kept_out(path):
    """Whether another user of the machine can't connect; None where this one can't try."""
    if os.geteuid() != 0:
        return None
    tried = subprocess.run(["setpriv", f"--reuid={NOBODY}", "--clear-groups", sys.executable, "-c",
                            "import socket, sys; socket.socket(socket.AF_UNIX).connect(sys.argv[1])", str(path)], capture_output=True, text=True)
    return "PermissionError" in tried.stderr


def tries(program, folder):
    os.chmod(folder, 0o755)
    path, one, other = folder / "fts.sock", stand(folder / "one"), stand(folder / "other")
    first = serve(program, one, "--socket", str(path))
    yield "it answers at the socket", listens(first, path)
    mode = stat.filemode(path.stat().st_mode)
    yield f"its mode is what the umask leaves: {mode}", mode == "srwx------"
    out = is_kept_out(path)
    yield f"another user is kept out: {out}", out is not False
    said = copies(path, one)
    yield f"a file: {said}", said == ("FINISHED", b"abc")
    second = serve(program, other, "--socket", str(path))
    yield f"a second service there ends with status {second.wait(LISTENS)}", second.returncode == 9
    yield "the first one goes on", listens(first, path)
    first.send_signal(signal.SIGKILL)
    first.wait()
    yield "the socket stays behind a kill", stat.S_ISSOCK(path.stat().st_mode)
    third = serve(program, other, f"--socket={path}", "--lanes=2", umask=0o007)
    yield "the next service replaces it", listens(third, path)
    yield f"with the mode of its umask: {stat.filemode(path.stat().st_mode)}", stat.filemode(path.stat().st_mode) == "srwxrwx---"
    (other / "fts.stop").touch()
    yield f"a stop ends it with status {third.wait(LISTENS)}", third.returncode == 23
    plain = folder / "plain"
    plain.write_bytes(b"dear")
    fourth = serve(program, one, "--socket", str(plain))
    yield f"at another file it ends with status {fourth.wait(LISTENS)}, and the file holds {plain.read_bytes()}", (fourth.returncode, plain.read_bytes()) == (9, b"dear")
    for words in ([], ["--socket", str(path), "--port", "8080"], ["--socket", "x" * 108], ["--socket="]):
        ended = serve(program, one, *words).wait(LISTENS)
        yield f"serve {' '.join(words)[:40]}: status {ended}", ended == 2


def main(words):
    program, wrong = str(pathlib.Path(words[0]).resolve()), 0
    with tempfile.TemporaryDirectory() as folder:
        for text, is_wanted in tries(program, pathlib.Path(folder)):
            wrong += not is_wanted
            print(text if is_wanted else f"{text}: otherwise than wanted", flush=True)
    return 1 if wrong else 0


if __name__ == "__main__":
    sys.exit(main(sys.argv[1:]))
