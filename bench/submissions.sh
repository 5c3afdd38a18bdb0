#!/bin/sh
# Submissions over 4 connections beside the journal's appends alone, and beside a C program that makes an append's calls and nothing else between
# request and answer (submit_peer.c), without more work and with 25 microseconds of it within its lock, in turns, in one run.
#     bench/submissions.sh PROGRAM BENCHES [SECONDS]
# PROGRAM is fts, and BENCHES the program of crates/benches, as they were built. It needs Debian's wrk and gcc. Ports 18080 and 18081
# of 127.0.0.1 are used. Where SLOW_SYNC_US is set, each sync of all sides lasts so many microseconds longer (slow_syncs.c).
set -eu
program=$(realpath "$1")
benches=$(realpath "$2")
seconds=${3:-3}
here=$(realpath "$(dirname "$0")")
work=$(mktemp -d "$(pwd)/submissions.XXXXXX")
trap 'kill $(jobs -p) 2>/dev/null || true; wait; rm -rf "$work"' EXIT
cd "$work"
gcc -O2 -shared -fPIC -o slow_reads.so "$here/slow_reads.c"
gcc -O2 -shared -fPIC -o slow_syncs.so "$here/slow_syncs.c"
gcc -O2 -pthread -o submit_peer "$here/submit_peer.c"
mkdir -p stand/grid/https:,,a.example
truncate -s 4G stand/grid/https:,,a.example/large
printf 'vo = "demo"\nworkers = 1\n[[storage]]\nurl = "https://a.example"\n[[storage]]\nurl = "https://b.example"\n' > stand/fts.toml
# the one worker waits in the first read of a large file meanwhile: no other file is claimed, so each submission is one entry of the journal,
# and the worker, which asks behind each piece whether its file was cancelled, takes no turn
large='{"files":[{"sources":["https://a.example/large"],"destinations":["https://b.example/large"]}]}'
cat > post.lua <<'LUA'
wrk.method = "POST"
wrk.body = [[{"files":[{"sources":["https://a.example/none"],"destinations":["https://b.example/f1"]}]}]]
LUA
rate() { wrk -t4 -c4 -d"${seconds}s" -s post.lua "http://127.0.0.1:$1/jobs" | awk '/Requests\/sec/ { print $2 }'; }
# what the C program reaches with so much work within its lock
peer() {
    LD_PRELOAD="$work/slow_syncs.so" ./submit_peer 18081 peer.journal "$1" & peer=$!
    for _ in $(seq 100); do curl -sf -m 2 -o /dev/null http://127.0.0.1:18081/ && break; sleep 0.05; done
    rate 18081
    kill $peer; wait $peer 2>/dev/null || true
}
for round in 1 2 3; do
    rm -rf stand/fts.journal stand/grid/https:,,b.example
    LD_PRELOAD="$work/slow_reads.so $work/slow_syncs.so" "$program" stand serve --port 18080 --lanes 4 & service=$!
    for _ in $(seq 100); do curl -sf -m 2 -o /dev/null http://127.0.0.1:18080/jobs && break; sleep 0.05; done
    curl -sS -o /dev/null http://127.0.0.1:18080/jobs -d "$large"
    sleep 0.3
    ours=$(rate 18080)
    kill $service; wait $service 2>/dev/null || true
    plain=$(peer 0)
    busy=$(peer 25)
    theirs=$(LD_PRELOAD="$work/slow_syncs.so" "$benches" journal "${APPENDS:-3000}" | sed 's/.*journal \([0-9]*\),.*/\1/')
    awk -v round="$round" -v ours="$ours" -v plain="$plain" -v busy="$busy" -v theirs="$theirs" 'BEGIN {
        printf "round %s: %.0f submissions a second, %.0f of the C program, %.0f with work inside, %.0f appends a second alone; to appends %.2f, %.2f and %.2f\n",
            round, ours, plain, busy, theirs, ours / theirs, plain / theirs, busy / theirs }'
done
