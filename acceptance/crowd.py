#!/usr/bin/env python3
"""More kept connections than lanes, by the program as it was built: each line says what was tried and what came.

acceptance/crowd.py PROGRAM: PROGRAM is fts as it was built. It serves folders of its own on free ports of 127.0.0.1. A polite client keeps its
connection between requests; where it finds that closed before a request it opens another one and asks again, as clients of HTTP do. Wanted: however
many keep their connections, each request is answered within a second, and no line is ended in the middle of a request or before its own time.
"""
import collections
import http.client
import select
import signal
import socket
import sys
import threading
import time

from serving import Service, wrong_in

# seconds within which each is answered, how often each client asks, and for how long
SOON, EACH, LASTING = 1.0, 2.0, 20.0
# seconds after which a client gives up
WAITS = 15
# seconds that a line may be silent before its first request, however many wait, and how long a stall of one is tried
OWN, STALL = 1.0, 3.0


class Polite:
    """A client that keeps its connection, and asks again on a new one where it finds that closed."""

    def __init__(self, service):
        self.service, self.line, self.closings, self.asked_twice = service, None, 0, 0

    def connected(self):
        if self.line and self.line.sock and select.select([self.line.sock], [], [], 0)[0]:
            self.line.close()
            self.line, self.closings = None, self.closings + 1
        if not self.line:
            self.line = http.client.HTTPConnection("127.0.0.1", self.service.port, timeout=WAITS)
        return self.line

    def once(self, method, path, body):
        line = self.connected()
        line.request(method, path, body)
        answer = line.getresponse()
        answer.read()
        return answer.status

    def ask(self, method="GET", path="/jobs?limit=1", body=None):
        """The status, and the seconds until it was there."""
        begun = time.monotonic()
        try:
            status = self.once(method, path, body)
        except (http.client.RemoteDisconnected, ConnectionError):
            self.close()
            self.asked_twice += 1
            status = self.once(method, path, body)
        return status, time.monotonic() - begun

    def close(self):
        if self.line:
            self.line.close()
            self.line = None


def polls(client, number, clients, end, answers):
    """Asks every two seconds; the clients' moments are spread evenly over these."""
    moment = time.monotonic() + EACH * number / clients
    while (wait := moment - time.monotonic()) < end - time.monotonic():
        time.sleep(max(wait, 0))
        try:
            answers.append(client.ask())
        except (OSError, http.client.HTTPException) as fault:
            client.close()
            answers.append((type(fault).__name__, time.monotonic() - moment))
        moment += EACH


def crowd(service, clients, lasting, spread=True):
    """The answers of so many polite clients, and the clients."""
    answers, all_of_them, end = [], [Polite(service) for _ in range(clients)], time.monotonic() + lasting
    threads = [threading.Thread(target=polls, args=(it, place if spread else 0, clients, end, answers)) for place, it in enumerate(all_of_them)]
    for thread in threads:
        thread.start()
    for thread in threads:
        thread.join()
    for it in all_of_them:
        it.close()
    return answers, all_of_them


def told_of(answers, clients):
    statuses = dict(collections.Counter(status for status, _ in answers))
    times = sorted(took for _, took in answers) or [0]
    told = f"{len(answers)} GETs {statuses}, middle {1000 * times[len(times) // 2]:.1f} ms, slowest {1000 * times[-1]:.0f} ms; "
    told += f"found closed {sum(it.closings for it in clients)} times, asked twice {sum(it.asked_twice for it in clients)} times"
    return told, set(statuses) == {200} and times[-1] <= SOON


def fifty(program):
    """50 kept connections over 4 lanes, a GET each every 2 s: spread evenly, and all at once."""
    service = Service(program, lanes=4)
    for how, spread in (("spread evenly", True), ("all at once", False)):
        told, is_wanted = told_of(*crowd(service, 50, LASTING, spread))
        yield f"50 kept connections over 4 lanes, a GET each every 2 s, {how}: {told}", is_wanted
    service.stop()


def ninth(program):
    """Eight kept connections over eight lanes, and a ninth; and no kept one is ended while a lane is free."""
    service = Service(program, lanes=8)
    kept = [Polite(service) for _ in range(8)]
    for client in kept:
        assert client.ask()[0] == 200
    other = Polite(service)
    try:
        status, took = other.ask()
    except OSError as fault:
        status, took = type(fault).__name__, WAITS
    closed = sum(bool(select.select([it.line.sock], [], [], 0)[0]) for it in kept)
    yield f"eight kept ones and a ninth: it is answered {status} after {1000 * took:.0f} ms, and {closed} of the eight gave way", (
        status == 200 and took <= SOON and closed == 1
    )
    told, is_wanted = told_of(*crowd(service, 8, 6))
    yield f"eight that ask every 2 s, over as many lanes: {told}", is_wanted
    other.close()
    for client in kept:
        client.close()
    service.stop()


def keeps(program):
    """One kept connection over four lanes, beside many that come and go: a free lane is to take them. Not so today: bench/runs has the numbers."""
    service, closings = Service(program, lanes=4), 0
    kept = Polite(service)
    for _ in range(500):
        closings += kept.line is None or bool(select.select([kept.line.sock], [], [], 0)[0])
        kept.ask()
        service.ask("GET", "/jobs")
    closings -= 1  # the first was none
    yield f"a kept connection over 4 lanes, beside 500 connections of others one by one: closed {closings} times", closings <= 25
    kept.close()
    service.stop()


def silent(program):
    """Clients that connect and send nothing hold their lanes for their own time alone, and no request that began is ended for another."""
    service = Service(program, lanes=4)
    lines = [socket.create_connection(("127.0.0.1", service.port)) for _ in range(4)]
    time.sleep(0.1)
    begun = time.monotonic()
    status = service.ask("GET", "/jobs")[0]
    took = time.monotonic() - begun
    yield f"four that connect and send nothing, and a fifth: it is answered {status} after {took:.1f} s", status == 200 and OWN / 2 < took <= OWN + SOON
    for line in lines:
        line.close()
    service.stop()


STALLS = {
    "behind its first byte": (b"", b"G", b"ET /jobs HTTP/1.1\r\n\r\n"),
    "behind its last byte but one": (b"", b"GET /jobs HTTP/1.1\r\n\r", b"\n"),
    "within its body": (b"", b'POST /jobs HTTP/1.1\r\nContent-Length: 2\r\n\r\n{', b"}"),
    "within the second of two that came at once": (b"GET /jobs HTTP/1.1\r\n\r\n", b"GET /jobs HT", b"TP/1.1\r\n\r\n"),
    "within the body of the second of two": (b"GET /jobs HTTP/1.1\r\n\r\n", b"POST /jobs HTTP/1.1\r\nContent-Length: 2\r\n\r\n", b"{}"),
}


def read_response(line):
    response = http.client.HTTPResponse(line)
    response.begin()
    response.read()
    return response.status


def stalls(program):
    """A request that stalls is waited for, though another connection waits; that one is answered behind it."""
    service = Service(program, lanes=1)
    for where, (whole, part, rest) in STALLS.items():
        with socket.create_connection(("127.0.0.1", service.port)) as line:
            line.sendall(whole + part)
            if whole:
                assert read_response(line) == 200
            other = threading.Thread(target=service.ask, args=("GET", "/jobs"))
            other.start()
            time.sleep(STALL)
            waits = other.is_alive()
            line.sendall(rest)
            try:
                status = read_response(line)
            except (OSError, http.client.HTTPException) as fault:
                status = type(fault).__name__
            other.join()
        yield f"one lane, a request that stalls for {STALL:.0f} s {where} while another connection waits: {status}", waits and status in (200, 400)
    service.stop()


def busy(program):
    """Eight clients that never pause over four lanes: each is answered, none shut out."""
    service, counts = Service(program, lanes=4), [0] * 8
    end = time.monotonic() + 5

    def asks(place):
        client = Polite(service)
        while time.monotonic() < end:
            counts[place] += client.ask()[0] == 200
        client.close()

    threads = [threading.Thread(target=asks, args=(place,)) for place in range(8)]
    for thread in threads:
        thread.start()
    for thread in threads:
        thread.join()
    yield f"eight that never pause, over 4 lanes, for 5 s: {sum(counts)} GETs, from {min(counts)} to {max(counts)} a client", min(counts) * 8 > max(counts)
    service.stop()


def main(words):
    if len(words) != 1:
        sys.exit(__doc__)
    signal.signal(signal.SIGINT, signal.default_int_handler)
    wrong = sum(wrong_in(tried(words[0])) for tried in (fifty, ninth, keeps, silent, stalls, busy))
    print(f"otherwise than wanted {wrong}")
    return 1 if wrong else 0


if __name__ == "__main__":
    sys.exit(main(sys.argv[1:]))
