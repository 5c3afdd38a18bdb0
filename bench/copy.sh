#!/bin/sh
# Verified copies beside a C program with the same steps and syncs, in one folder and one run: small files into one folder, small files into 50 in turn,
# and large ones. Beside the large ones also two MD5 passes.
# bench/copy.sh PROGRAM [FOLDER]: PROGRAM is benches as it was built, FOLDER an empty folder on the disk to be measured. Needs a C compiler.
set -eu
program=$1
folder=${2:-$(mktemp -d)}
source=$folder/grid/https:,,a.example
peer=$folder/copy_peer
cc -O2 -o "$peer" "$(dirname "$0")/copy_peer.c"

seconds() {
    start=$(date +%s.%N)
    "$@" >"$folder/output"
    end=$(date +%s.%N)
    echo "$start $end" | awk '{ printf "%.3f", $2 - $1 }'
}

# A copy anew, COUNT files of SET in FOLDERS: what an earlier run made is gone, and what that left to write is written.
#     copies SET COUNT FOLDERS COMMAND..
copies() {
    rm -rf "$folder/grid/https:,,b.example"
    sync
    set=$1 count=$2 folders=$3
    shift 3
    seconds "$@" "$folder/grid" "$set" "$count" "$folders"
    grep -q "verified $count" "$folder/output" || exit 1
}

digests() {
    cat "$source/$1"/* | md5sum
    cat "$source/$1"/* | md5sum
}

mkdir -p "$source/small" "$source/large"
for n in $(seq 0 49); do
    mkdir -p "$source/spread/d$n"
done
awk 'BEGIN { for (n = 0; n < 2000; n++) print n, (n * 2741) % 4096 }' | while read -r n bytes; do
    head -c "$bytes" /dev/urandom >"$source/small/f$n"
    cp "$source/small/f$n" "$source/spread/d$((n % 50))/f$n"
done
for n in $(seq 0 63); do
    head -c 4194304 /dev/urandom >"$source/large/f$n"
done
sync

for run in 1 2 3; do
    for set in "small 2000 1" "spread 2000 50" "large 64 1"; do
        # shellcheck disable=SC2086
        ours=$(copies $set "$program" copy)
        # shellcheck disable=SC2086
        theirs=$(copies $set "$peer")
        echo "run $run, $set: copies $ours s, the same steps in C $theirs s"
        echo "$ours $theirs" | awk '{ printf "  ratio %.2f\n", $1 / $2 }'
    done
    digest=$(seconds digests large)
    echo "run $run, two MD5 passes over the large files: $digest s"
done
rm -rf "$folder"
