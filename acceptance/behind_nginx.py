#!/usr/bin/env python3
"""The service behind nginx as examples/nginx.conf sets it up, by the program as it was built: each line says what was tried and what came.

acceptance/behind_nginx.py PROGRAM [CONF]: PROGRAM is fts as it was built, CONF another file of settings. nginx has four worker processes, TLS and
certificates of its own authority; the ports alone are changed. Wanted: each GET is answered 200, the slowest within a second, a client without a
certificate is let in by nobody, and a submission of 1 MiB comes through. It needs nginx and openssl.
"""
import collections
import concurrent.futures
import http.client
import json
import pathlib
import shutil
import signal
import ssl
import subprocess
import sys
import tempfile
import time

from serving import A, B, Service, free_port, wrong_in

CONF = pathlib.Path(__file__).resolve().parent.parent / "examples" / "nginx.conf"
# seconds within which each is answered, how many clients there are, and how many GETs each sends, a connection of its own each
SOON, CLIENTS, EACH = 1.0, 8, 8
NGINX = shutil.which("nginx") or "/usr/sbin/nginx"


def shell(*words):
    subprocess.run([str(word) for word in words], check=True, capture_output=True)


def make_certificates(folder):
    """An authority, and a certificate of it for the server and for a client."""
    (folder / "logs").mkdir(parents=True)
    folder.parent.chmod(0o711)  # where root runs it, nginx's processes are another user's
    new = ("openssl", "req", "-newkey", "rsa:2048", "-nodes", "-keyout")
    shell(*new, folder / "ca.key", "-x509", "-days", "2", "-subj", "/CN=authority", "-out", folder / "ca.crt")
    for name, subject in (("server", "localhost"), ("client", "client")):
        (folder / "more").write_text(f"subjectAltName=DNS:{subject}\n")
        shell(*new, folder / f"{name}.key", "-subj", f"/CN={subject}", "-out", folder / "request")
        shell(
            *("openssl", "x509", "-req", "-days", "2", "-in", folder / "request", "-CA", folder / "ca.crt", "-CAkey", folder / "ca.key"),
            *("-CAcreateserial", "-extfile", folder / "more", "-out", folder / f"{name}.crt"),
        )


class Front:
    """nginx in front of a service."""

    def __init__(self, service, conf, folder):
        make_certificates(folder)
        self.port, text = free_port(), conf.read_text()
        for old, new in (("127.0.0.1:8080", f"127.0.0.1:{service.port}"), ("127.0.0.1:8443", f"127.0.0.1:{self.port}")):
            assert old in text, f"{old} isn't in {conf}"
            text = text.replace(old, new)
        assert "worker_processes auto;" in text
        (folder / "nginx.conf").write_text(text.replace("worker_processes auto;", "worker_processes 4;"))
        self.process = subprocess.Popen([NGINX, "-p", folder, "-c", folder / "nginx.conf", "-g", "daemon off;"], stderr=subprocess.DEVNULL)
        self.context = ssl.create_default_context(cafile=folder / "ca.crt")
        self.stranger = ssl.create_default_context(cafile=folder / "ca.crt")
        self.context.load_cert_chain(folder / "client.crt", folder / "client.key")
        last = time.monotonic() + 20
        while not (folder / "logs/nginx.pid").exists() and time.monotonic() < last:
            time.sleep(0.05)

    def ask(self, method, path, body=None, context=None):
        line = http.client.HTTPSConnection("localhost", self.port, context=context or self.context, timeout=60)
        try:
            line.request(method, path, body)
            answer = line.getresponse()
            return answer.status, answer.read()
        finally:
            line.close()

    def timed(self, _):
        begun = time.monotonic()
        try:
            status = self.ask("GET", "/config/links")[0]
        except OSError as fault:
            status = type(fault).__name__
        return status, time.monotonic() - begun

    def stop(self):
        self.process.terminate()
        self.process.wait()


def tries(service, front):
    for at_once in (1, CLIENTS):
        with concurrent.futures.ThreadPoolExecutor(at_once) as clients:
            begun = time.monotonic()
            answers = list(clients.map(front.timed, range(CLIENTS * EACH)))
            took = time.monotonic() - begun
        statuses, slowest = dict(collections.Counter(status for status, _ in answers)), max(wait for _, wait in answers)
        told = f"{len(answers)} GETs, {at_once} at once: {statuses} in {took:.1f} s, the slowest after {1000 * slowest:.0f} ms"
        yield told, set(statuses) == {200} and slowest <= SOON
    status = front.ask("GET", "/jobs", context=front.stranger)[0]
    yield f"a client without a certificate: {status}", status == 400
    service.source("f1", b"abc")
    document = json.dumps({"files": [{"sources": [f"{A}/f1"], "destinations": [f"{B}/f1.0"]}]})
    status, body = front.ask("POST", "/jobs", document.ljust(1 << 20))
    states = service.settle(json.loads(body)["job_id"]) if status == 200 else []
    yield f"a submission of 1 MiB: {status}, then {states}", (status, states) == (200, ["FINISHED"])
    status, body = front.ask("POST", "/jobs", "{")
    yield f"a refusal: {status} {body.decode()}", (status, json.loads(body)["rule"]) == (400, 1)


def main(words):
    if len(words) not in (1, 2):
        sys.exit(__doc__)
    signal.signal(signal.SIGINT, signal.default_int_handler)
    service = Service(words[0], lanes=4)
    with tempfile.TemporaryDirectory() as folder:
        front = Front(service, pathlib.Path(words[1]) if len(words) == 2 else CONF, pathlib.Path(folder) / "front")
        wrong = wrong_in(tries(service, front))
        front.stop()
    service.stop()
    print(f"otherwise than wanted {wrong}")
    return 1 if wrong else 0


if __name__ == "__main__":
    sys.exit(main(sys.argv[1:]))
