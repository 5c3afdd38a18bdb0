#!/usr/bin/env python3
"""The files of examples/ as they stand, by the program as it was built: each line says what was tried and what came.

acceptance/examples.py PROGRAM: PROGRAM is fts as it was built. It serves folders of its own, with examples/fts.toml, on free ports of 127.0.0.1.
Wanted: two-submissions.http is answered by its reply, byte for byte; the five documents are accepted one after another and each of their files is
FINISHED; submit.sh comes to its end, also where it submits by the program's own command, and where the service refuses it shows the message and ends
with 1; progress.py shows a job until it is settled, and the same job when it is asked again; fts.service and fts-follow.service are units that systemd
takes (where systemd-analyze is there), their start's words serve and follow, what they make under its mask nobody else may read, and the stop of
fts.service ends a service with status 23; follow.sh follows
while a service is started anew, and ends where another one has its port; the last line of journal_gates.py says where the last entry ends; and the
commands in README.md, "A first run", and the submission in docs/API.md print what stands there. nginx.conf and the copies of journal_gates.py have
scripts of their own (behind_nginx.py, gates.py). It needs curl and bash.
"""
import configparser
import grp
import json
import os
import pathlib
import pwd
import re
import shlex
import shutil
import signal
import stat
import subprocess
import sys
import tempfile
import time

from serving import Service, free_port, notes_in, wrong_in

TOP = pathlib.Path(__file__).resolve().parent.parent
EXAMPLES = TOP / "examples"
# a command of a document, with the lines that go on with it
COMMAND = re.compile(r"^\$ (.*\n(?:    .*\n)*)", re.M)
DOCUMENTS = ("one-file", "several-files", "with-checksum", "replicas", "multihop")
SETTLED = ("FINISHED", "FINISHEDDIRTY", "FAILED", "CANCELED")
SOURCES = {"data/f1": b"abc", "data/f2": b"defg", "copies/f1": b"abc"}


def commands_of(place, heading):
    """The commands in a section of a document, and what stands below all of them."""
    section = place.read_text().split(f"\n## {heading}\n")[1].split("\n## ")[0]
    blocks = "".join(block for block in re.findall(r"```\n(.*?)```", section, re.S) if COMMAND.match(block))
    return COMMAND.findall(blocks), COMMAND.sub("", blocks)


def without_moments(text):
    return re.sub(r'"submit_time":\d+', '"submit_time":N', text)


def first_run(program):
    commands, wanted = commands_of(TOP / "README.md", "A first run")
    port = free_port()
    waits = f"until (: < /dev/tcp/127.0.0.1/{port}) 2> /dev/null; do sleep 0.1; done\n"
    # a reader waits until a service listens, and for a moment behind each request
    script = "".join(text + (waits if text.endswith("&\n") else "sleep 1\n" if text.startswith("curl") else "") for text in commands)
    script = script.replace("crates/fts/out/fts", os.path.abspath(program)).replace("8080", str(port))
    with tempfile.TemporaryDirectory() as folder:
        os.symlink(EXAMPLES, pathlib.Path(folder) / "examples")
        run = subprocess.run(["bash", "-c", script + "\nkill %1 2> /dev/null; wait"], cwd=folder, capture_output=True, text=True, timeout=60)
    # what a terminal shows begins each command on a line of its own
    same = [re.sub(r"\s+", "", without_moments(text)) for text in (run.stdout, wanted)]
    yield f"README.md, the first run: {len(commands)} commands print what stands there: {same[0] == same[1]}", same[0] == same[1] != ""


def submits_as_documented(program):
    commands, wanted = commands_of(TOP / "docs" / "API.md", "From the command line")
    service = stand(program)
    script = commands[0].replace("fts - ", f"{os.path.abspath(program)} - ").replace("8080", str(service.port))
    run = subprocess.run(["bash", "-c", script], capture_output=True, text=True, timeout=60)
    service.stop()
    yield f"docs/API.md, the submission: {run.returncode}, {run.stdout.strip()}", (run.returncode, run.stdout) == (0, wanted)


def stand(program, folder=None, **more):
    service = Service(program, settings=(EXAMPLES / "fts.toml").read_text(), folder=folder, **more)
    for name, content in SOURCES.items():
        service.source(name, content)
    return service


def settle(service, job):
    """The states of a job's files once it is settled; of replicas those behind the copied one stay NOT_USED."""
    for _ in range(2000):
        if service.ask("GET", f"/jobs/{job}")[1]["job_state"] in SETTLED:
            break
        time.sleep(0.01)
    return [file["file_state"] for file in service.ask("GET", f"/jobs/{job}/files")[1]]


def documents(program):
    service = stand(program)
    for name in DOCUMENTS:
        status, answer = service.ask("POST", "/jobs", (EXAMPLES / f"{name}.json").read_bytes())
        states = settle(service, answer["job_id"]) if status == 200 else [answer]
        yield f"{name}.json: {status}, then {states}", status == 200 and "FINISHED" in states and set(states) <= {"FINISHED", "NOT_USED"}
    made = {name: service.copied(name) for name in ("f1", "f2", "checked", "nearest", "hop")}
    back = (service.path / "grid/https:,,a.example/back/f1").read_bytes()
    is_same = made == {"f1": b"abc", "f2": b"defg", "checked": b"abc", "nearest": b"abc", "hop": b"abc"} and back == b"abc"
    yield f"what they copied has the sources' bytes: {is_same}", is_same
    service.stop()


def submit(*words):
    run = subprocess.run(["sh", EXAMPLES / "submit.sh", *words], capture_output=True, text=True, timeout=60)
    return run.returncode, run.stdout.splitlines(), run.stderr


def submits(program):
    service = stand(program)
    url = f"http://127.0.0.1:{service.port}"
    for name, words in (("submit.sh", ()), ("submit.sh by the program's own submit", (os.path.abspath(program),))):
        status, lines, error = submit(url, *words)
        is_wanted = (status, len(lines), error) == (0, 5, "") and lines[1] == "it is FINISHED" and json.loads(lines[2])[0]["file_state"] == "FINISHED"
        yield f"{name}: status {status}, {len(lines)} lines, the second {lines[1:2]}", is_wanted
    service.stop()
    status, lines, error = submit(url)
    yield f"submit.sh where nobody listens: status {status}, {error.splitlines()[-1:]}", status == 1 and not lines and "no answer" in error


def refused(program):
    settings = (EXAMPLES / "fts.toml").read_text()
    service = Service(program, settings=settings.replace("https://b.example", "https://d.example"))
    status, lines, error = submit(f"http://127.0.0.1:{service.port}")
    wanted = service.ask("POST", "/jobs", (EXAMPLES / "one-file.json").read_bytes())[1]["message"]
    told = error.splitlines()[-1:]
    yield f"submit.sh where the settings lack its storage: status {status}, {told}", (status, lines, told) == (1, [], [f"refused: {wanted}"])
    service.stop()


def session(program):
    asked, wanted = (EXAMPLES / f"two-submissions.{kind}" for kind in ("http", "reply.http"))
    run = subprocess.run([program, "-", "session"], input=asked.read_bytes(), capture_output=True, timeout=60)
    is_same = run.stdout == wanted.read_bytes()
    yield f"two-submissions.http: status {run.returncode}, its reply {is_same}", (run.returncode, is_same) == (0, True)


def shows_progress(program):
    service = stand(program)
    pairs = [f"https://{end}.example/{name}" for name in ("data/f1", "data/f2") for end in ("a", "b")]
    words = [sys.executable, EXAMPLES / "progress.py", "--url", f"http://127.0.0.1:{service.port}", "mine-1", *pairs]
    runs = [subprocess.run(words, capture_output=True, text=True, timeout=60) for _ in range(2)]
    # a bar is drawn over the one before it: as a text each is a line
    ids, ends = zip(*((run.stdout.split()[0], run.stdout.rstrip().splitlines()[-1].strip()) for run in runs))
    bar = f"[{'#' * 40}] 2/2 2 FINISHED"
    is_wanted = (ids[0], ends, [run.returncode for run in runs]) == (ids[1], (bar, bar), [0, 0])
    yield f"progress.py, and again with its sid: {ends[0]}, the same job {ids[0] == ids[1]}", is_wanted
    service.stop()


def tells_the_end(program):
    service = stand(program)
    service.settle(service.ask("POST", "/jobs", (EXAMPLES / "one-file.json").read_bytes())[1]["job_id"])
    service.stop()
    journal = service.path / "fts.journal"
    run = subprocess.run([sys.executable, EXAMPLES / "journal_gates.py", journal], capture_output=True, text=True, timeout=60)
    said = run.stdout.splitlines()[-1]
    used = len(journal.read_bytes().rstrip(b"\0"))
    end = re.fullmatch(r"4 whole entries .*, the last ends at (\d+)", said)
    yield f"journal_gates.py: {run.returncode}, {said}", run.returncode == 0 and end is not None and int(end[1]) == used


class Loop:
    """follow.sh, and what it prints."""

    def __init__(self, program, folder, port):
        words = ["sh", EXAMPLES / "follow.sh", folder, str(port), "0.1"]
        own = {**os.environ, "FTS": os.path.abspath(program)}
        self.process = subprocess.Popen(words, stdout=subprocess.PIPE, stderr=subprocess.DEVNULL, env=own, start_new_session=True)

    def line(self):
        return self.process.stdout.readline().decode().strip()

    def end(self):
        """Its status, where it ends by itself."""
        try:
            return self.process.wait(30)
        except subprocess.TimeoutExpired:
            return None

    def kill(self):
        if self.process.poll() is None:
            os.killpg(self.process.pid, signal.SIGKILL)
            self.process.wait()


def follows(program):
    service, other, standby = stand(program), stand(program), tempfile.TemporaryDirectory()
    shutil.copy(EXAMPLES / "fts.toml", standby.name)
    loop = Loop(program, standby.name, service.port)
    try:
        yield from follows_by(loop, program, service, other, standby.name)
    finally:
        loop.kill()
        other.stop()


def follows_by(loop, program, service, other, standby):
    """A loop while a primary is started anew, and while another service takes its port."""
    lines = [loop.line()]
    service.settle(service.ask("POST", "/jobs", (EXAMPLES / "one-file.json").read_bytes())[1]["job_id"])
    while lines[-1] not in ("", "caught up at 4"):
        lines.append(loop.line())
    service.stop()
    service.start(port=service.port)
    lines.append(loop.line())
    yield f"follow.sh: {lines}", (lines[0], lines[-2:]) == ("caught up at 1", ["caught up at 4", "caught up at 5"])
    shown = [subprocess.run([program, it, "show"], capture_output=True).stdout for it in (service.path, standby)]
    yield f"the standby has the primary's jobs: {shown[0] == shown[1]}, {len(shown[0].splitlines())} lines", shown[0] == shown[1] != b""
    service.stop()
    other.stop()
    other.start(port=service.port)
    status = loop.end()
    yield f"where another service has the port: it ends with status {status}", status == 22


def unit(name):
    parser = configparser.ConfigParser(strict=False, delimiters=("=",), interpolation=None)
    parser.optionxform = str
    parser.read(EXAMPLES / f"{name}.service")
    return parser["Service"]


def verified(program, name):
    """What systemd-analyze says of a unit, with the program and a user of this machine in the places of its own."""
    if not shutil.which("systemd-analyze"):
        return "systemd-analyze isn't there"
    text = (EXAMPLES / f"{name}.service").read_text()
    user, group = pwd.getpwuid(os.getuid()).pw_name, grp.getgrgid(os.getgid()).gr_name
    for old, new in (("/usr/local/bin/fts ", f"{os.path.realpath(program)} "), ("User=fts", f"User={user}"), ("Group=fts", f"Group={group}")):
        assert text.count(old) == 1, old
        text = text.replace(old, new)
    with tempfile.TemporaryDirectory() as folder:
        place = pathlib.Path(folder) / f"{name}.service"
        place.write_text(text)
        run = subprocess.run(["systemd-analyze", "verify", place], capture_output=True, text=True)
    return [run.returncode, *(line for line in (run.stdout + run.stderr).splitlines() if "fts" in line)]


def stops_as_the_unit(service, command):
    """The status of the unit's stop, by the words that systemd makes of it, and that of the service with its line."""
    words = shlex.split(command.replace("$$", "$").replace("/var/lib/fts", str(service.path)))
    stop = subprocess.Popen(words, env={**os.environ, "MAINPID": str(service.process.pid)})
    try:
        _, note = service.process.communicate(timeout=30)
    except subprocess.TimeoutExpired:
        service.process.kill()
        _, note = service.process.communicate()
    return stop.wait(30), service.process.returncode, notes_in(note)


def serves_as_the_unit(program):
    said, port = unit("fts"), free_port()
    words = said["ExecStart"].replace("8080", str(port)).split()
    old = os.umask(int(said["UMask"], 8))
    try:
        service = stand(program, lanes=int(words[words.index("--lanes") + 1]))
    finally:
        os.umask(old)
    status, answer = service.ask("POST", "/jobs", (EXAMPLES / "one-file.json").read_bytes())
    states = service.settle(answer["job_id"])
    places = [service.path / "fts.journal", *(service.path / "grid/https:,,b.example").rglob("*")]
    modes = {stat.filemode(place.stat().st_mode)[4:] for place in places}
    ended = stops_as_the_unit(service, said["ExecStop"])
    yield f"under the unit's mask {said['UMask']}: {status}, {states}, what others may do with {len(places)} files and folders: {sorted(modes)}", (
        (states, modes, words[2]) == (["FINISHED"], {"------"}, "serve")
    )
    yield f"the unit's stop: {ended[0]}, and the service {ended[1:]}", ended == (0, 23, "fts: stopped\n")
    said = verified(program, "fts")
    yield f"systemd-analyze of the unit: {said}", said in ("systemd-analyze isn't there", [0])


def follows_as_the_unit(program):
    said, service = unit("fts-follow"), stand(program)
    folder = tempfile.TemporaryDirectory()
    words = said["ExecStart"].replace("8081", str(service.port)).replace("/var/lib/fts", folder.name).split()
    run = subprocess.run([program, *words[1:]], capture_output=True, text=True, umask=int(said["UMask"], 8), timeout=60)
    modes = {stat.filemode(place.stat().st_mode)[4:] for place in pathlib.Path(folder.name).iterdir()}
    service.stop()
    yield f"the words of the standby's unit: {run.returncode}, {run.stdout!r}, what others may do: {sorted(modes)}", (
        (run.returncode, run.stdout, run.stderr, modes) == (0, "caught up at 1\n", "", {"------"})
    )
    said = verified(program, "fts-follow")
    yield f"systemd-analyze of it: {said}", said in ("systemd-analyze isn't there", [0])


def main(words):
    if len(words) != 1:
        sys.exit(__doc__)
    signal.signal(signal.SIGINT, signal.default_int_handler)
    services = (first_run, submits_as_documented, session, documents, submits, refused, shows_progress, tells_the_end, serves_as_the_unit)
    standbys = (follows_as_the_unit, follows)
    wrong = sum(wrong_in(tried(words[0])) for tried in services + standbys)
    print(f"otherwise than wanted {wrong}")
    return 1 if wrong else 0


if __name__ == "__main__":
    sys.exit(main(sys.argv[1:]))
