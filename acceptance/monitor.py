#!/usr/bin/env python3
"""A monitor beside a service, by the programs as they were built: each line says what was tried and what came.

acceptance/monitor.py PROGRAM MONITOR: PROGRAM is fts and MONITOR fts_monitor as they were built. The service has a folder of its own, whose copies end
well and badly; the monitor looks at its journal. What it shows is compared with the service's own replies, with the sizes of the files that were copied,
and with this clock: each figure is counted anew here. A line that is otherwise says so, and then the status is 1.
"""
import base64
import hashlib
import http.client
import importlib.util
import json
import os
import pathlib
import re
import socket
import subprocess
import sys
import time

from serving import A, B, Service, free_port, wrong_in

LISTENS = 20
DESCRIPTION = pathlib.Path(__file__).resolve().parent.parent / "docs" / "openapi-monitor.yaml"


class Monitor:
    """A monitor over the folder of a service."""

    def __init__(self, program, folder):
        self.port = free_port()
        self.process = subprocess.Popen([program, str(folder), "--port", str(self.port)], stdin=subprocess.DEVNULL, stderr=subprocess.PIPE)
        last = time.monotonic() + LISTENS
        while self.process.poll() is None and time.monotonic() < last:
            try:
                socket.create_connection(("127.0.0.1", self.port)).close()
                return
            except OSError:
                time.sleep(0.02)
        self.stop()
        raise SystemExit(f"it does not listen: {self.process.stderr.read().decode()}")

    def stop(self):
        self.process.kill()
        self.process.wait()

    def ask(self, path, method="GET", fields=()):
        connection = http.client.HTTPConnection("127.0.0.1", self.port, timeout=15)
        try:
            connection.request(method, path, headers=dict(fields))
            answer = connection.getresponse()
            return answer.status, answer.headers, answer.read()
        finally:
            connection.close()

    def json(self, path):
        status, _, body = self.ask(path)
        return json.loads(body) if status == 200 else status

    def metrics(self):
        """The samples, by their names with labels."""
        lines = self.ask("/metrics")[2].decode().splitlines()
        return {line.rsplit(" ", 1)[0]: float(line.rsplit(" ", 1)[1]) for line in lines if line and not line.startswith("#")}


def copies(service):
    """Files that are copied, and one whose source is missing: their sizes."""
    sizes = [5, 70_000, 1_000_003]
    for number, size in enumerate(sizes):
        service.source(f"f{number}", os.urandom(size))
        service.settle(service.submit(f"f{number}"))
    service.settle(service.submit("missing"))
    return sizes


def counts(service, monitor, sizes):
    jobs = service.ask("GET", "/jobs?limit=1000")[1]
    states = [job["job_state"] for job in jobs]
    samples = monitor.metrics()
    shown = {state: int(samples[f'fts_jobs{{state="{state}"}}']) for state in set(states)}
    wanted = {state: states.count(state) for state in set(states)}
    yield f"jobs by state {shown}, by the service {wanted}", shown == wanted
    link = f'{{source="{A}",destination="{B}"'
    copied = int(samples[f"fts_copied_bytes_total{link}}}"])
    yield f"bytes copied {copied}, of the files {sum(sizes)}", copied == sum(sizes)
    verified = int(samples[f'fts_reports_total{link},outcome="verified"}}'])
    missing = int(samples[f'fts_reports_total{link},outcome="source_missing"}}'])
    yield f"reports: verified {verified}, source missing {missing}", (verified, missing) == (len(sizes), 1)
    age = time.time() - samples["fts_last_entry_timestamp_seconds"]
    yield f"the last entry is {age:.0f} s old", -2 < age < 60


def history(monitor, sizes):
    for step, count in ((60, 60), (600, 144), (3600, 168)):
        told = monitor.json(f"/history?step={step}&count={count}")
        ends, last = told["from"] % step == 0, told["from"] + step * len(told["bytes"])
        is_now = last - step <= time.time() < last + 2
        sums = sum(told["finished"]), sum(told["failed"]), sum(told["bytes"])
        same = {len(told[name]) for name in ("finished", "failed", "bytes")} == {count}
        yield f"steps of {step} s: {sums}", ends and is_now and same and sums == (len(sizes), 1, sum(sizes))
    one = monitor.json(f"/history?step=3600&count=2&source={B}")
    yield f"nothing goes from the other storage: {one['finished']}", sum(one["finished"]) == 0
    for query in ("step=61", "step=60&count=0", "step=60&count=241", "count=x"):
        yield f"a history of {query}: {monitor.json('/history?' + query)}", monitor.json("/history?" + query) == 400


def page(monitor):
    status, fields, body = monitor.ask("/")
    text, policy = body.decode(), fields["Content-Security-Policy"]
    names = {"style": "style-src", "script": "script-src"}
    for tag, name in names.items():
        inside = re.search(f"<{tag}>(.*?)</{tag}>", text, re.S).group(1)
        digest = base64.b64encode(hashlib.sha256(inside.encode()).digest()).decode()
        yield f"the policy names the digest of the page's {tag}", f"{name} 'sha256-{digest}'" in policy
    outside = re.findall(r"(?:src|href)=.(?!data:)[a-z]+:", text)
    yield f"the page: {status}, {fields['Content-Type']}, {len(body)} bytes, links to elsewhere {outside}", status == 200 and not outside and "default-src 'none'" in policy


def reasons(service, monitor):
    """Jobs by the reason of a file, and what happened to files, beside what the service says of them."""
    jobs = service.ask("GET", "/jobs?limit=1000")[1]
    files = {job["job_id"]: service.ask("GET", f"/jobs/{job['job_id']}/files")[1] for job in jobs}
    for reason in ("source missing", "store failed"):
        wanted = [id for id, rows in files.items() if any(row["reason"] == reason for row in rows)]
        for word in (reason.replace(" ", "%20"), reason.replace(" ", "+")):
            found = [job["job_id"] for job in monitor.json(f"/jobs?limit=200&reason={word}")["jobs"]]
            yield f"jobs by reason={word}: {len(found)}, by the service {len(wanted)}", found == wanted
    yield "jobs by a reason that is none: 400", monitor.json("/jobs?reason=missing") == 400
    for id, rows in files.items():
        told = {row["file_id"]: row for row in monitor.json(f"/jobs/{id}")["files"]}
        for row in rows:
            events, verified = told[row["file_id"]]["events"], row["file_state"] == "FINISHED"
            words, last = [event["event"] for event in events], events[-1]
            ends = last["bytes"] == row["filesize"] if verified else last["reason"] == row["reason"]
            ordered = [event["time"] for event in events] == sorted(event["time"] for event in events)
            yield f"events of file {row['file_id']}: {words}", words == ["submitted", "claimed", "finished" if verified else "failed"] and ends and ordered


def described(monitor):
    """Replies in JSON by docs/openapi-monitor.yaml; nothing is tried where PyYAML or jsonschema are missing."""
    if not all(importlib.util.find_spec(name) for name in ("yaml", "jsonschema")):
        return
    import jsonschema
    import yaml

    api = yaml.safe_load(DESCRIPTION.read_text())
    job = monitor.json("/jobs?limit=1")["jobs"][0]["job_id"]
    for path in ("/snapshot", "/history", "/jobs", f"/jobs/{job}", "/jobs?reason=none", "/jobs/none"):
        status, _, body = monitor.ask(path)
        template = "/jobs/{id}" if path.startswith("/jobs/") else path.split("?")[0]
        response = api["paths"][template]["get"]["responses"][str(status)]
        if "$ref" in response:
            response = api["components"]["responses"][response["$ref"].rsplit("/", 1)[1]]
        schema = {**response["content"]["application/json"]["schema"], "components": api["components"]}
        yield f"{path}: {status}, a body of its schema", jsonschema.Draft202012Validator(schema).is_valid(json.loads(body))


def refusals(monitor):
    for path, method, fields, wanted in (
        ("/metrics", "POST", (), 405),
        ("/nothing", "GET", (), 404),
        ("/metrics", "GET", (("Origin", "https://elsewhere.example"),), 403),
    ):
        status = monitor.ask(path, method, fields)[0]
        yield f"{method} {path} {dict(fields)}: {status}", status == wanted


def beside(service, monitor):
    """What came since the last look is seen, and behind a service that ended too."""
    service.source("later", b"abc")
    service.settle(service.submit("later"))
    now = monitor.metrics()["fts_rows"]
    service.stop()
    yield f"rows behind one job more: {now:.0f}; without a service {monitor.metrics()['fts_rows']:.0f}", now == monitor.metrics()["fts_rows"] == 5


def main(words):
    if len(words) != 2:
        sys.exit(__doc__)
    service = Service(words[0])
    sizes = copies(service)
    monitor = Monitor(words[1], service.path)
    try:
        before = counts(service, monitor, sizes), history(monitor, sizes), page(monitor), reasons(service, monitor), described(monitor), refusals(monitor)
        wrong = sum(wrong_in(lines) for lines in (*before, beside(service, monitor)))
    finally:
        monitor.stop()
        service.process.kill()
    print(f"otherwise than wanted {wrong}")
    return 1 if wrong else 0


if __name__ == "__main__":
    sys.exit(main(sys.argv[1:]))
