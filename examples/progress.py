#!/usr/bin/env python3
"""Submits files with a sid, again where an answer is lost, and shows the job's files as a bar until it is settled.

    progress.py [--url URL] SID SOURCE DESTINATION [SOURCE DESTINATION ...]

It needs Python's standard library alone. The exit status is 0 where every file was copied.
"""
import http.client
import json
import sys
import time
import urllib.parse

SETTLED = ("FINISHED", "FAILED", "CANCELED", "FINISHEDDIRTY")
WIDTH = 40


def ask(url, method, path, body=None, tries=10):
    """The status and the object of an answer. A request whose answer is lost is sent again."""
    place = urllib.parse.urlsplit(url)
    for left in reversed(range(tries)):
        connection = http.client.HTTPConnection(place.hostname, place.port or 80, timeout=15)
        try:
            connection.request(method, path, body=body)
            answer = connection.getresponse()
            return answer.status, json.loads(answer.read())
        except (OSError, http.client.HTTPException):
            if left == 0:
                raise
            time.sleep(0.5)
        finally:
            connection.close()


def submit(url, sid, pairs):
    """The id of the job: with the same sid it is the same job, and a repetition is answered 409 with its id."""
    files = [{"sources": [source], "destinations": [destination]} for source, destination in pairs]
    body = json.dumps({"files": files, "params": {"id_generator": "deterministic", "sid": sid, "overwrite": True}}).encode()
    status, answer = ask(url, "POST", "/jobs", body)
    if status not in (200, 409):
        sys.exit(f"refused: {status} {answer}")
    return answer["job_id"]


def draw(files):
    """One line: how many of the files are settled, and in which states they are."""
    done = sum(file["file_state"] in SETTLED for file in files)
    states = {}
    for file in files:
        states[file["file_state"]] = states.get(file["file_state"], 0) + 1
    bar = "#" * (WIDTH * done // len(files))
    text = ", ".join(f"{count} {state}" for state, count in sorted(states.items()))
    print(f"\r[{bar:<{WIDTH}}] {done}/{len(files)} {text:<60}", end="", flush=True)


def main(words):
    url = "http://127.0.0.1:8080"
    if words[:1] == ["--url"]:
        url, words = words[1], words[2:]
    if len(words) < 3 or len(words) % 2 == 0:
        sys.exit(__doc__)
    job = submit(url, words[0], list(zip(words[1::2], words[2::2])))
    print(job)
    while True:
        _status, files = ask(url, "GET", f"/jobs/{job}/files")
        draw(files)
        if all(file["file_state"] in SETTLED for file in files):
            print()
            return 0 if all(file["file_state"] == "FINISHED" for file in files) else 1
        time.sleep(0.2)


if __name__ == "__main__":
    sys.exit(main(sys.argv[1:]))
