#!/usr/bin/env python3
"""The Debian package that packaging/deb makes, installed into a folder of its own: each line says what was tried and what came.

acceptance/package.py PROGRAM [BASE]: as root. PROGRAM is fts as it was built. BASE is a Debian that debootstrap made, which is copied; where none is
named debootstrap makes one, over the network. Wanted: apt-get installs the package; user and folder are there, and the folder is the user's alone;
systemd takes both units; the words of each unit run as their user, under its mask, in the folder: one service copies what one submission asks for,
and a standby has its entries; what they make nobody else may read; the manual page is shown without a warning; and behind the removal the folder is
as it was. No systemd has to run. Status 1 where a line is otherwise.
"""
import configparser
import hashlib
import json
import os
import pathlib
import shutil
import signal
import subprocess
import sys
import tempfile
import time

from serving import free_port, wrong_in

TOP = pathlib.Path(__file__).resolve().parent.parent
SUITE, MIRROR = "bookworm", "http://deb.debian.org/debian"
STAND = "var/lib/fts"
LISTENS = 20  # seconds until a service that was started takes connections
DOCUMENT = {
    "files": [{"sources": ["https://a.example/data/f1"], "destinations": ["https://b.example/f1"]}],
    "params": {"id_generator": "deterministic", "sid": "package.py"},
}


class Machine:
    """A Debian in a folder, in which commands run."""

    def __init__(self, root):
        self.root = root

    def run(self, *words, user=None, **more):
        as_user = [f"--userspec={user}"] if user else []
        clean = {"PATH": "/usr/sbin:/usr/bin:/sbin:/bin", "LC_ALL": "C.UTF-8", "DEBIAN_FRONTEND": "noninteractive"}
        return subprocess.run(["chroot", *as_user, self.root, *words], capture_output=True, text=True, env=clean, timeout=300, **more)

    def starts(self, unit, port):
        """Starts the words of a unit as its user, with this port in place of its own."""
        said = section(self.root / f"usr/lib/systemd/system/{unit}.service")
        words = said["ExecStart"].split()
        words[words.index("--port") + 1] = str(port)
        private = ["setpriv", "--no-new-privs"] if said["NoNewPrivileges"] == "true" else []
        runs = [*private, "chroot", f"--userspec={said['User']}:{said['Group']}", self.root, *words]
        return subprocess.Popen(runs, umask=int(said["UMask"], 8), stdin=subprocess.DEVNULL, stdout=subprocess.PIPE, stderr=subprocess.PIPE)


def section(place):
    parser = configparser.ConfigParser(strict=False, delimiters=("=",), interpolation=None)
    parser.optionxform = str
    parser.read(place)
    return parser["Service"]


def last_of(ran):
    return (ran.stdout + ran.stderr).strip().splitlines()[-1:]


def installs(machine, package):
    shutil.copy(package, machine.root / "tmp" / "fts.deb")
    ran = machine.run("apt-get", "install", "--yes", "/tmp/fts.deb")
    yield f"apt-get install: {ran.returncode}, {last_of(ran) if ran.returncode else ''}", ran.returncode == 0
    ran = machine.run("stat", "--format", "%U %G %a", f"/{STAND}")
    yield f"{STAND}: {ran.stdout.strip()}", ran.stdout.strip() == "fts fts 700"
    ran = machine.run("dpkg", "--verify", "fts")
    yield f"dpkg --verify: {ran.returncode}, {ran.stdout.strip()!r}", (ran.returncode, ran.stdout) == (0, "")
    for unit in ("fts", "fts-follow"):
        ran = machine.run("systemd-analyze", "verify", f"/usr/lib/systemd/system/{unit}.service")
        said = [line for line in (ran.stdout + ran.stderr).splitlines() if "fts" in line]
        yield f"systemd-analyze verify {unit}.service: {ran.returncode}, {said}", (ran.returncode, said) == (0, [])


def shows_manual(machine):
    page = machine.root / "usr/share/man/man1/fts.1.gz"
    if not shutil.which("groff"):
        yield "the manual page: groff isn't there", True
        return
    text = subprocess.run(["zcat", page], capture_output=True, check=True).stdout
    ran = subprocess.run(["groff", "-man", "-Tutf8", "-ww"], input=text, capture_output=True, env={**os.environ, "LC_ALL": "C"})
    yield f"the manual page: {len(ran.stdout.splitlines())} lines, warnings {ran.stderr.decode()!r}", (ran.returncode, ran.stderr) == (0, b"")


def settle(machine):
    """Puts the example settings and a source into the folder, as its user."""
    settings = machine.root / "usr/share/doc/fts/examples/fts.toml"
    source = machine.root / STAND / "grid/https:,,a.example/data/f1"
    (machine.root / STAND / "fts.toml").write_bytes(settings.read_bytes())
    source.parent.mkdir(parents=True)
    source.write_bytes(b"abc")
    machine.run("chown", "-R", "fts:fts", f"/{STAND}")
    machine.run("chmod", "-R", "go=", f"/{STAND}")


def waits(machine, service, port, job):
    """What the job came to: its state, by the program's own query as another user."""
    last = time.monotonic() + LISTENS
    while service.poll() is None and time.monotonic() < last:
        ran = machine.run("fts", "-", "query", "--port", str(port), "--job", job, user="nobody:nogroup")
        state = json.loads(ran.stdout)["job_state"] if ran.returncode == 0 else last_of(ran)
        if state not in ("SUBMITTED", "ACTIVE"):
            return state
        time.sleep(0.05)
    return "not settled"


def serves(machine):
    settle(machine)
    port = free_port()
    service = machine.starts("fts", port)
    words = ("fts", "-", "submit", "--port", str(port), "--tries", "5")
    ran = machine.run(*words, user="nobody:nogroup", input=json.dumps(DOCUMENT))
    yield f"a submission as nobody: {ran.returncode}, {last_of(ran)}", ran.returncode == 0
    state = waits(machine, service, port, ran.stdout.strip()) if ran.returncode == 0 else None
    copy = machine.root / STAND / "grid/https:,,b.example/f1"
    is_copied = copy.exists() and copy.read_bytes() == b"abc"
    yield f"its job: {state}, the same bytes {is_copied}", (state, is_copied) == ("FINISHED", True)
    service.send_signal(signal.SIGTERM)
    said = service.communicate(timeout=20)[1].decode()
    yield f"SIGTERM: ended by signal {-service.returncode}, {said!r}", (service.returncode, said) == (-signal.SIGTERM, "")
    ran = machine.run("find", f"/{STAND}", "!", "-user", "fts", "-o", "-perm", "/077")
    yield f"what is not the user's alone: {ran.stdout.split()}", (ran.returncode, ran.stdout) == (0, "")


def follows(machine):
    """The words of the standby's unit over the folder, behind a primary in another folder of the same user."""
    primary, port = "/tmp/primary", free_port()
    machine.run("cp", "-a", f"/{STAND}", primary)
    (machine.root / STAND / "fts.journal").unlink()
    service = subprocess.Popen(["chroot", "--userspec=fts:fts", machine.root, "fts", primary, "serve", "--port", str(port)], stderr=subprocess.PIPE)
    try:
        standby = machine.starts("fts-follow", port)
        told, said = (it.decode() for it in standby.communicate(timeout=60))
    finally:
        service.terminate()
        service.communicate(timeout=20)
    wanted, found = (machine.run("fts", folder, "show").stdout for folder in (primary, f"/{STAND}"))
    yield f"a standby's round: {standby.returncode}, {told!r}, {said!r}", (standby.returncode, said) == (0, "") and told.startswith("caught up at ")
    yield f"it has the primary's jobs: {found == wanted}, {len(found.splitlines())} lines", found == wanted and len(found.splitlines()) == 2


def folder_of(machine):
    """What stands in the folder: names and digests."""
    top = machine.root / STAND
    return {str(place.relative_to(top)): hashlib.md5(place.read_bytes()).digest() for place in top.rglob("*") if place.is_file()}


def removes(machine):
    before = folder_of(machine)
    ran = machine.run("dpkg", "--purge", "fts")
    yield f"dpkg --purge: {ran.returncode}", ran.returncode == 0
    is_kept = folder_of(machine) == before and len(before) >= 3
    left = [name for name in ("usr/bin/fts", "usr/lib/systemd/system/fts.service", "usr/share/doc/fts") if (machine.root / name).exists()]
    yield f"the folder as it was: {is_kept}, {len(before)} files; left behind {left}", (is_kept, left) == (True, [])


def make_root(folder, base):
    """A Debian in a folder: a copy of one that is there, or a new one."""
    if base:
        subprocess.run(["cp", "-a", base, folder], check=True)
    else:
        subprocess.run(["debootstrap", "--variant=minbase", "--include=systemd", SUITE, folder, MIRROR], check=True, stdout=subprocess.DEVNULL)
    return Machine(folder)


def main(words):
    if len(words) not in (1, 2):
        sys.exit(__doc__)
    with tempfile.TemporaryDirectory() as place:
        os.chmod(place, 0o755)
        folder = pathlib.Path(place)
        subprocess.run([TOP / "packaging/deb", words[0], folder / "fts.deb"], check=True)
        machine = make_root(folder / "root", words[1] if len(words) == 2 else None)
        # what dpkg runs looks there
        subprocess.run(["mount", "-t", "proc", "proc", machine.root / "proc"], check=True)
        try:
            tries = (lambda it: installs(it, folder / "fts.deb"), shows_manual, serves, follows, removes)
            wrong = sum(wrong_in(tried(machine)) for tried in tries)
        finally:
            subprocess.run(["umount", machine.root / "proc"], check=True)
    print(f"otherwise than wanted {wrong}")
    return 1 if wrong else 0


if __name__ == "__main__":
    sys.exit(main(sys.argv[1:]))
