#!/usr/bin/env python3
"""The input of `load --number N`, by a program of its own: expected values for tests, and for the program as it was built.

Usage: load.py NUMBER [SOURCE DEST]
       load.py --by PROGRAM [NUMBER..]

NUMBER is a whole number from 0 to 2**64 - 1. SOURCE and DEST are the names of the first and the last endpoint; those of the stand `-` are the default.
The first form prints the first draws, the sizes of all files, MD5 digests of files and of requests, and how many bytes the requests have.

The second lets PROGRAM, which is fts as it was built, load each number (7, 0 and 2**64 - 1 where none is named) over a folder in /dev/shm. Compared are
each file of the input and its copy, byte by byte, the line that is written, and what `show` says of jobs and files against the requests. Some places hold
other files before: sources are replaced, and copies overwrite. Status 1 where something is otherwise.

The generator is PCG XSH RR 64/32 (M. E. O'Neill, "PCG: a family of simple fast space-efficient statistically good algorithms for random number
generation", 2014), written from its definition: 64 bits of state, the multiplier 6364136223846793005, and an increment that is odd. It begins as the
reference implementation's `pcg32_srandom_r(state, stream)` does.
"""

import hashlib
import json
import pathlib
import subprocess
import sys
import tempfile

MASK = (1 << 64) - 1
MULTIPLIER = 6364136223846793005
SOURCE, DEST = "https://a.example", "https://b.example"


class Pcg32:
    """The generator of a state on a stream."""

    def __init__(self, state: int, stream: int) -> None:
        self.increment = (stream << 1 | 1) & MASK
        self.state = 0
        self.step()
        self.state = (self.state + state) & MASK
        self.step()

    def step(self) -> None:
        self.state = (self.state * MULTIPLIER + self.increment) & MASK

    def word(self) -> int:
        """The next word, of 32 bits."""
        old = self.state
        self.step()
        mixed = ((old >> 18 ^ old) >> 27) & 0xFFFFFFFF
        turn = old >> 59
        return (mixed >> turn | mixed << (-turn & 31)) & 0xFFFFFFFF


def draws(number: int) -> list[tuple[int, int]]:
    """The two words of each of the 2,000 files."""
    random = Pcg32(number, 1)
    return [(random.word(), random.word()) for _ in range(2000)]


def content(first: int, second: int) -> bytes:
    """The bytes of a file, by its two words."""
    size, start = first % 4096, second % 256
    return bytes((start + at) % 256 for at in range(size))


def request(source: str, dest: str, job: int) -> bytes:
    """The request that submits a job, by its number from 1 to 20."""
    files = ",".join(
        f'{{"destinations":["{dest}/load/d{k}"],"sources":["{source}/load/s{k}"]}}'
        for k in range(100 * (job - 1) + 1, 100 * job + 1)
    )
    body = f'{{"files":[{files}],"params":{{"overwrite":true,"priority":{1 + job % 5}}}}}'
    return f"POST /jobs HTTP/1.1\r\nContent-Length: {len(body)}\r\n\r\n{body}".encode()


def show(source: str, dest: str) -> str:
    """What `show` writes of the jobs that the requests submit, once all is copied."""
    lines = []
    for job in range(1, 21):
        document = json.loads(request(source, dest, job).split(b"\r\n\r\n")[1])
        lines.append(f"job 00000000-0000-4000-8000-{job:012x} FINISHED plain {document['params']['priority']}")
        for index, file in enumerate(document["files"]):
            lines.append(f"file {100 * (job - 1) + index + 1} {index} FINISHED {file['sources'][0]} {file['destinations'][0]}")
    return "".join(f"{line}\n" for line in lines)


def faults_of(program: str, number: int, folder: pathlib.Path) -> list[str]:
    """What is otherwise than wanted where the program loads this number over this folder."""
    (folder / "fts.toml").write_text('vo = "demo"\n' + "".join(f'[[storage]]\nurl = "{name}"\n' for name in (SOURCE, DEST)))
    sources, copies = (folder / "grid" / name.replace("/", ",") / "load" for name in (SOURCE, DEST))
    for place in (sources / "s1", sources / "s2000", copies / "d2", copies / "d1999"):
        place.parent.mkdir(parents=True, exist_ok=True)
        place.write_bytes(b"other" * 1000)
    ran = subprocess.run([program, folder, "load", "--number", str(number)], capture_output=True)
    shown = subprocess.run([program, folder, "show"], capture_output=True)
    faults = []
    for what, found, wanted in (
        ("status and line", (ran.returncode, ran.stdout), (0, b"claims 2000 finished 2000 failed 0 cancelled 0 waiting 0\n")),
        ("status of a look", shown.returncode, 0),
        ("jobs and files", shown.stdout.decode().splitlines(), show(SOURCE, DEST).splitlines()),
        ("names of sources", {it.name for it in sources.iterdir()}, {f"s{k}" for k in range(1, 2001)}),
    ):
        faults += [] if found == wanted else [f"{what}: {str(found)[:200]}"]
    for k, pair in enumerate(draws(number), 1):
        wanted = content(*pair)
        faults += [f"{it.name} has other bytes" for it in (sources / f"s{k}", copies / f"d{k}") if not it.is_file() or it.read_bytes() != wanted]
    return faults


def compare(program: str, numbers: list[int]) -> int:
    """The status: 0 where the program makes of each number what this one does."""
    wrong = 0
    for number in numbers:
        with tempfile.TemporaryDirectory(dir="/dev/shm") as folder:
            faults = faults_of(program, number, pathlib.Path(folder))
        print(f"number {number}: {f'{len(faults)} otherwise, {faults[:5]}' if faults else 'as wanted'}", flush=True)
        wrong += bool(faults)
    print(f"numbers {len(numbers)}, otherwise than wanted {wrong}")
    return 1 if wrong else 0


def tell(number: int, source: str, dest: str) -> None:
    words = draws(number)
    print("first words", words[:3], "last words", words[-1])
    files = [content(*pair) for pair in words]
    for k in (1, 2, 2000):
        data = files[k - 1]
        print(f"file {k}: size {len(data)} first byte {data[:1].hex()} md5 {hashlib.md5(data).hexdigest()}")
    print("bytes of all files", sum(map(len, files)), "md5", hashlib.md5(b"".join(files)).hexdigest())
    requests = [request(source, dest, job) for job in range(1, 21)]
    for job in (1, 20):
        data = requests[job - 1]
        print(f"request {job}: bytes {len(data)} md5 {hashlib.md5(data).hexdigest()}")
    data = b"".join(requests)
    print("bytes of all requests", len(data), "md5", hashlib.md5(data).hexdigest())


def main() -> None:
    if sys.argv[1] == "--by":
        sys.exit(compare(str(pathlib.Path(sys.argv[2]).resolve()), [int(word) for word in sys.argv[3:]] or [7, 0, MASK]))
    tell(int(sys.argv[1]), *(sys.argv[2:4] if len(sys.argv) > 3 else (SOURCE, DEST)))


if __name__ == "__main__":
    main()
