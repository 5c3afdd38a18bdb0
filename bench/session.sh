#!/bin/sh
# A session that copies beside a C program that does the same writes, reads and syncs, in one folder and one run: 20 jobs of 100 small files, and 64 files
# of 4 MiB. The C program appends a record before and behind each copy, and copies by the same steps (bench/copy_peer.c).
# bench/session.sh PROGRAM [FOLDER]: PROGRAM is fts as it was built, FOLDER an empty folder on the disk to be measured. Needs a C compiler.
set -eu
program=$(realpath "$1")
folder=${2:-$(mktemp -d)}
source=$folder/grid/https:,,a.example
peer=$folder/copy_peer
cc -O2 -o "$peer" "$(dirname "$0")/copy_peer.c"
printf 'vo = "demo"\nworkers = 16\ndefault_max_active = 16\n[[storage]]\nurl = "https://a.example"\n[[storage]]\nurl = "https://b.example"\n' >"$folder/fts.toml"

seconds() {
    start=$(date +%s.%N)
    "$@" >"$folder/output"
    end=$(date +%s.%N)
    echo "$start $end" | awk '{ printf "%.3f", $2 - $1 }'
}

# Requests of jobs of so many files each, from f0 on.
requests() {
    awk -v set="$1" -v files="$2" -v each="$3" 'BEGIN {
        for (first = 0; first < files; first += each) {
            body = "{\"files\":["
            for (n = first; n < first + each && n < files; n++) {
                body = body (n > first ? "," : "") "{\"sources\":[\"https://a.example/" set "/f" n "\"],\"destinations\":[\"https://b.example/" set "/f" n "\"]}"
            }
            body = body "]}"
            printf "POST /jobs HTTP/1.1\r\nContent-Length: %d\r\n\r\n%s", length(body), body
        }
    }' >"$folder/requests"
}

session() {
    "$program" "$folder" session <"$folder/requests"
}

# What an earlier run made is gone, and what that left to write is written.
anew() {
    rm -rf "$folder/grid/https:,,b.example" "$folder/fts.journal" "$folder/peer.journal"
    sync
}

mkdir -p "$source/small" "$source/large"
awk 'BEGIN { for (n = 0; n < 2000; n++) print n, (n * 2741) % 4096 }' | while read -r n bytes; do
    head -c "$bytes" /dev/urandom >"$source/small/f$n"
done
for n in $(seq 0 63); do
    head -c 4194304 /dev/urandom >"$source/large/f$n"
done
sync

for run in 1 2 3; do
    for set in "small 2000 100" "large 64 64"; do
        # shellcheck disable=SC2086
        requests $set
        name=${set%% *}
        files=$(echo "$set" | cut -d' ' -f2)
        anew
        ours=$(seconds session)
        for n in $(seq 0 $((files - 1))); do
            cmp -s "$source/$name/f$n" "$folder/grid/https:,,b.example/$name/f$n" || { echo "$name/f$n was not copied"; exit 1; }
        done
        anew
        theirs=$(seconds "$peer" "$folder/grid" "$name" "$files" 1 "$folder/peer.journal")
        echo "run $run, $set: session $ours s, the same steps in C $theirs s"
        echo "$ours $theirs" | awk '{ printf "  ratio %.2f\n", $1 / $2 }'
    done
done
rm -rf "$folder"
