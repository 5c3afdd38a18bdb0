#!/bin/sh
# GETs of one job a second against the number of connections that are kept, beside nginx with a file of the answer's size, in turns in one run.
#     bench/connections.sh PROGRAM [SECONDS]
# PROGRAM is fts as it was built; it serves over 8 lanes. Printed are lines as those of bench/runs/*-gets.csv. It needs Debian's wrk, curl and
# nginx-light. Ports 18080 and 18082 of 127.0.0.1 are used.
set -eu
program=$(realpath "$1")
seconds=${2:-3}
work=$(mktemp -d)
trap 'kill $(jobs -p) 2>/dev/null || true; wait; rm -rf "$work"' EXIT
cd "$work"
chmod 755 "$work"

mkdir -p "stand/grid/https:,,a.example/data" site
printf abc > "stand/grid/https:,,a.example/data/f1"
printf 'vo = "demo"\nworkers = 2\n[[storage]]\nurl = "https://a.example"\n[[storage]]\nurl = "https://b.example"\n' > stand/fts.toml
"$program" stand serve --port 18080 --lanes 8 &
head -c 168 /dev/zero | tr '\0' x > site/job
printf 'worker_processes 4;\ndaemon off;\nerror_log stderr crit;\npid nginx.pid;\nevents {}\n' > nginx.conf
printf 'http { access_log off; keepalive_requests 1000000; server { listen 127.0.0.1:18082; root %s/site; } }\n' "$work" >> nginx.conf
nginx -p "$work" -c nginx.conf &

wait_for() {
    for _ in $(seq 100); do
        curl -sf -m 2 -o /dev/null "$1" && return
        sleep 0.05
    done
    echo "nobody answers at $1" >&2
    exit 1
}
wait_for http://127.0.0.1:18080/jobs
wait_for http://127.0.0.1:18082/job
curl -sS -o /dev/null http://127.0.0.1:18080/jobs -d '{"files":[{"sources":["https://a.example/data/f1"],"destinations":["https://b.example/f1"]}]}'
sleep 1

# Requests a second over so many connections, by as many threads as there are processors at most.
rate() {
    threads=$(nproc)
    [ "$1" -ge "$threads" ] || threads=$1
    wrk -t"$threads" -c"$1" -d"${seconds}s" "$2" | awk '/Requests\/sec/ { printf "%.0f", $2 }'
}

echo "round,connections,service,nginx"
for round in 1 2 3; do
    for connections in 1 2 4 8 16 32 64; do
        service=$(rate "$connections" http://127.0.0.1:18080/jobs/00000000-0000-4000-8000-000000000001)
        echo "$round,$connections,$service,$(rate "$connections" http://127.0.0.1:18082/job)"
    done
done
