#!/bin/sh
# Serves beside peers, each pair in one run: GETs of one job over 4 kept connections beside four blocking lanes in C with a fixed answer and beside
# nginx with a file of that size; submissions over 4 connections; 2,000 small files by 4 workers beside 1; and GETs while 16 workers copy.
#     bench/serve.sh PROGRAM [SECONDS]
# PROGRAM is fts as it was built. It needs cc, and Debian's wrk and nginx-light. Ports 18080 to 18082 of 127.0.0.1 are used.
set -eu
program=$(realpath "$1")
seconds=${2:-5}
here=$(dirname "$(realpath "$0")")
work=$(mktemp -d)
trap 'kill $(jobs -p) 2>/dev/null || true; wait; rm -rf "$work"' EXIT
cd "$work"
chmod 755 "$work"
job=00000000-0000-4000-8000-000000000001

settings() { printf 'vo = "demo"\nworkers = %s\ndefault_max_active = 100\n[[storage]]\nurl = "https://a.example"\n[[storage]]\nurl = "https://b.example"\n' "$1"; }
make_stand() { mkdir -p "$1/grid/https:,,a.example/data"; printf abc > "$1/grid/https:,,a.example/data/f1"; settings "$2" > "$1/fts.toml"; }
wait_for() { for _ in $(seq 100); do curl -sf -m 2 -o /dev/null "$1" && return; sleep 0.05; done; echo "nobody answers at $1"; exit 1; }
rate() { wrk -t4 -c4 -d"${seconds}s" "$@" | awk '/Requests\/sec/ { print $2 }'; }
ratio() { awk -v ours="$2" -v theirs="$3" -v text="$1" 'BEGIN { printf "%s: ours %.0f, theirs %.0f, ratio %.2f\n", text, ours, theirs, ours / theirs }'; }
submission='{"files":[{"sources":["https://a.example/data/f1"],"destinations":["https://b.example/f1"]}],"params":{"overwrite":true}}'

# GETs of one job
make_stand stand 2
"$program" stand serve --port 18080 --lanes 4 & service=$!
cc -O2 -pthread -o serve_peer "$here/serve_peer.c"
./serve_peer 18081 & peer=$!
mkdir -p site logs
printf 'worker_processes 4;\ndaemon off;\nerror_log stderr crit;\npid nginx.pid;\nevents {}\nhttp { access_log off; keepalive_requests 1000000; server { listen 127.0.0.1:18082; root %s/site; } }\n' "$work" > nginx.conf
head -c 168 /dev/zero | tr '\0' x > site/job
nginx -p "$work" -c nginx.conf & web=$!
wait_for http://127.0.0.1:18080/jobs; wait_for http://127.0.0.1:18081/; wait_for http://127.0.0.1:18082/job
curl -sS -o /dev/null http://127.0.0.1:18080/jobs -d "$submission"
sleep 1
for round in 1 2 3; do
    ours=$(rate http://127.0.0.1:18080/jobs/$job)
    ratio "GETs of a job a second, four lanes in C beside it, round $round" "$ours" "$(rate http://127.0.0.1:18081/)"
    ratio "GETs of a job a second, nginx beside it, round $round" "$ours" "$(rate http://127.0.0.1:18082/job)"
done
kill $peer $web

# submissions over 4 connections, of files that have no source, so that copying costs little
printf 'wrk.method = "POST"\nwrk.body = [[%s]]\n' "$(printf '%s' "$submission" | sed 's,data/f1,data/none,')" > post.lua
echo "submissions a second over 4 connections: $(wrk -t4 -c4 -d2s -s post.lua http://127.0.0.1:18080/jobs | awk '/Requests\/sec/ { print $2 }')"
kill $service; wait $service 2>/dev/null || true

# 2,000 small files by 4 workers beside 1
copy_all() {
    make_stand "many$1" "$1"
    for k in $(seq 2000); do printf 'file %s' "$k" > "many$1/grid/https:,,a.example/data/s$k"; done
    "$program" "many$1" serve --port 18080 --lanes 2 & service=$!
    wait_for http://127.0.0.1:18080/jobs
    python3 - "$1" <<'PYTHON'
import http.client, json, sys, time
connection = http.client.HTTPConnection("127.0.0.1", 18080)
def ask(method, path, body=None):
    connection.request(method, path, body=body)
    return json.loads(connection.getresponse().read())
begun = time.monotonic()
jobs = []
for first in range(1, 2001, 100):
    files = [{"sources": [f"https://a.example/data/s{k}"], "destinations": [f"https://b.example/d{k}"]} for k in range(first, first + 100)]
    jobs.append(ask("POST", "/jobs", json.dumps({"files": files}))["job_id"])
while any(ask("GET", f"/jobs/{job}")["job_state"] != "FINISHED" for job in jobs):
    time.sleep(0.01)
print(time.monotonic() - begun)
PYTHON
    kill $service; wait $service 2>/dev/null || true
}
plain_copy() {
    python3 - <<'PYTHON'
import hashlib, os, time
begun = time.monotonic()
os.makedirs("plain/part", exist_ok=True)
for k in range(1, 2001):
    content = open(f"many1/grid/https:,,a.example/data/s{k}", "rb").read()
    with open(f"plain/part/{k}", "wb") as file:
        file.write(content); file.flush(); os.fsync(file.fileno())
    with open(f"plain/part/{k}", "rb") as file:
        assert hashlib.md5(file.read()).digest() == hashlib.md5(content).digest()
    os.rename(f"plain/part/{k}", f"plain/{k}")
print(time.monotonic() - begun)
PYTHON
}
one=$(copy_all 1); four=$(copy_all 4); plain=$(plain_copy)
awk -v one="$one" -v four="$four" -v plain="$plain" 'BEGIN { printf "2,000 small files: %.2f s by 1 worker, %.2f s by 4, ratio %.2f; by a plain program that syncs, reads back and renames %.2f s\n", one, four, one / four, plain }'

# GETs while 16 workers copy
make_stand busy 16
head -c 67108864 /dev/urandom > busy/grid/https:,,a.example/data/big
"$program" busy serve --port 18080 --lanes 4 & service=$!
wait_for http://127.0.0.1:18080/jobs
curl -sS -o /dev/null http://127.0.0.1:18080/jobs -d "$submission"; sleep 1
wrk --latency -t1 -c1 -d"${seconds}s" http://127.0.0.1:18080/jobs/$job | awk '/50%|99%/ { print "GET with nothing to copy, " $1 " within " $2 }'
for k in $(seq 40); do curl -sS -o /dev/null http://127.0.0.1:18080/jobs -d "{\"files\":[{\"sources\":[\"https://a.example/data/big\"],\"destinations\":[\"https://b.example/big$k\"]}]}"; done
wrk --latency -t1 -c1 -d"${seconds}s" http://127.0.0.1:18080/jobs/$job | awk '/50%|99%/ { print "GET while 16 workers copy, " $1 " within " $2 }'
kill $service; wait $service 2>/dev/null || true
