"""A device that fails, or is full, for a moment: a loop over a sparse file in a small tmpfs, with a file system of its own. Root only, since it mounts.

While the tmpfs is full each write of a new block fails, and the sync with it; the first 2,065 blocks, in which the file system keeps its log, are
there from the start, or it would end read-only. The image is so large that the journal's data lie behind them: where a write of several blocks
begins in one that is there and ends in one that is not, the loop takes the short write for a whole one, which no program can see. What is full
is the file system itself.
"""
import os
import shutil
import subprocess
import tempfile


def shell(line):
    return subprocess.run(["bash", "-c", line], check=True, capture_output=True, text=True).stdout.strip()


class Device:
    """A device that is to fail (`fails`), or to be full (`full`), mounted at `mount`; for `with`."""

    def __init__(self, kind):
        self.kind, self.place = kind, tempfile.mkdtemp()
        self.mount, self.loop, size = f"{self.place}/mnt", None, "36M" if kind == "full" else "64M"
        shell(f"mkdir -p {self.place}/back {self.mount}; mount -t tmpfs -o size=40m tmpfs {self.place}/back; truncate -s {size} {self.place}/back/image")
        shell(f"mkfs.ext4 -q -F -m 0 -b 4096 -J size=4 {self.place}/back/image")
        shell(f"dd if={self.place}/back/image of={self.place}/back/image bs=4k count=2065 conv=notrunc")
        self.loop = shell(f"losetup -f --show {self.place}/back/image")
        shell(f"mount {self.loop} {self.mount}")

    def begin_trouble(self):
        self.filler = f"{self.mount}/fill" if self.kind == "full" else f"{self.place}/back/fill"
        subprocess.run(["dd", "if=/dev/zero", f"of={self.filler}", "bs=4k"], capture_output=True)

    def end_trouble(self):
        os.remove(self.filler)

    def mount_again(self):
        """The system's copies go with the mount."""
        shell(f"umount {self.mount}; echo 3 >/proc/sys/vm/drop_caches; mount {self.loop} {self.mount}")

    def is_up(self):
        """Whether a MiB is free below the device, and the file system has not made itself read-only, as it does where a write of its own fails."""
        return shutil.disk_usage(f"{self.place}/back").free > 1 << 20 and not os.statvfs(self.mount).f_flag & os.ST_RDONLY

    def __enter__(self):
        return self

    def __exit__(self, *_):
        shell(f"umount {self.mount}; losetup -d {self.loop}; umount {self.place}/back")
        shutil.rmtree(self.place)
