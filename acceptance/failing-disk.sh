#!/bin/bash
# Appends on a device that fails for a moment: each body that was acknowledged has to be there after the next mount.
# acceptance/failing-disk.sh RUNS APPENDS PROGRAM [WORD..]: so many runs of so many appends (20 and 9000, where there is time), each by
# `PROGRAM WORD.. append PATH COUNT` and counted by `PROGRAM WORD.. list PATH`: crates/benches, as it was built, with the word journal. Root only, since
# it mounts. Status 1 where a body was lost, where an append was not answered, and where no failure was answered at all: then nothing was tried.
# The device is a loop over a sparse file in a small tmpfs. While the tmpfs is full each write of a new block fails, and the sync with it.
# The first 2,065 blocks, in which the file system keeps its log, are there from the start: else it would end read-only.
# Each run lets the device fail at a later moment than the one before, until a failure is answered, and for 20 ms more.
set -eu
runs=$1
appends=$2
program=$(realpath "$3")
shift 3
place=$(mktemp -d)
device=
trap 'end_device; rm -rf "$place"' EXIT
trap 'exit 1' HUP INT TERM

make_device() {
    mkdir -p "$place/back" "$place/mnt"
    mount -t tmpfs -o size=40m tmpfs "$place/back"
    truncate -s 64M "$place/back/image"
    mkfs.ext4 -q -F -m 0 -b 4096 -J size=4 "$place/back/image"
    dd if="$place/back/image" of="$place/back/image" bs=4k count=2065 conv=notrunc 2>/dev/null
    device=$(losetup -f --show "$place/back/image")
    mount "$device" "$place/mnt"
}

# Also at an end in the middle of a run: what is not there then is no fault.
end_device() {
    umount "$place/mnt" 2>/dev/null || true
    [ -z "$device" ] || losetup -d "$device" 2>/dev/null || true
    umount "$place/back" 2>/dev/null || true
    device=
}

# The system's copies go with the mount.
mount_again() {
    umount "$place/mnt"
    echo 3 >/proc/sys/vm/drop_caches
    mount "$device" "$place/mnt"
}

count() {
    grep -c "^$1 " "$place/answers" || true
}

# Appends; once so many were kept the device fails, until a failure is answered or all are done.
append_all() {
    : >"$place/answers"
    "$program" "$@" append "$place/mnt/journal" "$appends" >"$place/answers" &
    appending=$!
    while kill -0 $appending 2>/dev/null && [ "$(count kept)" -le "$begin" ]; do sleep 0.002; done
    dd if=/dev/zero of="$place/back/fill" bs=4k 2>/dev/null || true
    while kill -0 $appending 2>/dev/null && [ "$(count failed)" -eq 0 ]; do sleep 0.002; done
    sleep 0.02
    rm -f "$place/back/fill"
    wait $appending || true
}

lost_in_all=0
failed_in_all=0
answered_in_all=0
for run in $(seq 0 $((runs - 1))); do
    make_device
    begin=$((run * appends * 9 / runs / 10))
    append_all "$@"
    mount_again
    "$program" "$@" list "$place/mnt/journal" | sort >"$place/found"
    grep "^kept " "$place/answers" | sort >"$place/acknowledged"
    lost=$(comm -23 "$place/acknowledged" "$place/found" | wc -l)
    echo "run $run: acknowledged $(count kept), failed $(count failed), found $(wc -l <"$place/found"), lost $lost"
    lost_in_all=$((lost_in_all + lost))
    failed_in_all=$((failed_in_all + $(count failed)))
    answered_in_all=$((answered_in_all + $(count failed) + $(count kept)))
    end_device
done
echo "lost in all: $lost_in_all, answered: $answered_in_all of $((runs * appends)), of them with a failure: $failed_in_all"
[ "$lost_in_all" -eq 0 ] && [ "$answered_in_all" -eq $((runs * appends)) ] && [ "$failed_in_all" -gt 0 ]
