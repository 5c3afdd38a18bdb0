#!/usr/bin/env python3
"""bench/wrong-bodies.sh [--jobs N] [CRATE..]: the prover has to refuse every wrong body of these crates, or of all of them.

The gate tries the files must-fail/NAME.edit alone, each from nothing or nearly so. Those that it passes over stand beside them as NAME.edit.md.
This tries both, each over what `rt check` kept of the crate (out/), in a copy; so run `rt check` in the crate first, or `rt all check` in that of the
program. N crates are tried side by side (2, where nothing is said). Whoever changes a crate runs it over that crate.

A body is refused where the text with it is read and not proved. One that cannot be applied, or that no longer reads as a program, is no wrong body:
it counts as let through. Last line: how many were refused and how many let through. Status 1 where one was let through or none was tried.
"""

import os
import re
import shutil
import subprocess
import sys
import tempfile
from concurrent.futures import ThreadPoolExecutor

TOP = os.path.dirname(os.path.dirname(os.path.abspath(__file__)))
PARTS = ("src", "specs", "proofs")
# What the prover says of a text that it can't read, as opposed to one that is false.
UNREAD = re.compile(r"is not in scope|has no field|is no name|operand is missing|expected the end|cannot continue")
# What it says of a proof file that names what the wrong body took away.
LACKING = re.compile(r"(\./)?proofs/.*(has no field|is not in scope|has no `|was not admitted)")


def libraries():
    """The crates of crates.txt, each with the libraries of its line."""
    with open(f"{TOP}/crates.txt") as lines:
        found = (line.split("#")[0].partition(":") for line in lines)
        return {name.split()[0]: libs.split() for name, colon, libs in found if colon}


def below(crate, lines):
    """The repository's crates that this one stands on, itself included."""
    found = {crate}
    for name in lines[crate]:
        if name in lines and name not in found:
            found |= below(name, lines)
    return found


def edits_of(crate):
    folder = f"{TOP}/crates/{crate}/must-fail"
    names = sorted(os.listdir(folder)) if os.path.isdir(folder) else []
    return [f"{folder}/{name}" for name in names if name.endswith((".edit", ".edit.md"))]


def edited(edit, folder):
    """The texts of the files that the edit changes, by their path in the crate. ValueError where it cannot be applied."""
    path, old, texts = "", None, {}
    with open(edit) as lines:
        for line in lines.read().split("\n"):
            if line.startswith("file: "):
                path = line[6:].strip()
            elif line.startswith("old: "):
                old = line[5:]
            elif line.startswith("new:"):
                if path not in texts:
                    with open(f"{folder}/{path}") as text:
                        texts[path] = text.read()
                if not old or texts[path].count(old) != 1:
                    raise ValueError(f"'{old}' does not stand once in {path}")
                texts[path] = texts[path].replace(old, line[4:].removeprefix(" "))
    if not texts:
        raise ValueError("it changes nothing")
    return texts


def is_unread(line, changed):
    """Whether a line says that a text of src/, specs/ or a changed file could not be read."""
    at = re.match(r"(?:\./)?(\S+?):\d+:\d+: error: (?:(`[^`]*`): )?(.*)", line)
    if not at or at[1] not in changed and not at[1].startswith(("src/", "specs/")):
        return False
    return not at[2] or bool(UNREAD.search(re.sub(r"`[^`]*`", "", at[3])))


def verdict(ran, changed):
    """Whether what `rt check` said is a refusal, and why."""
    lines = ran.stdout.rstrip("\n").split("\n")
    unread = next((line for line in lines if is_unread(line, changed)), "")
    if unread:
        return False, f"NOT READ: {unread[:160]}"
    if ran.returncode == 0:
        return False, "LET THROUGH: the crate is still proved with it"
    if not any(line.startswith("logic=not-proved") for line in lines):
        return False, f"NOT TRIED: {' | '.join(lines[-3:])[:300]}"
    told = [line for line in lines if re.match(r"(note: )?\S+:\d+:\d+:", line) and (": error" in line or line.startswith("note: "))]
    why = next((line for line in told if not LACKING.match(line)), "")
    return True, f"refused: {why[:160]}" if why else "refused (only since a proof file names what it took away)"


def try_edit(edit, folder):
    """Tries one edit in the copy of its crate, and puts the crate's text back."""
    try:
        texts = edited(edit, folder)
    except (OSError, ValueError) as error:
        return False, f"NOT TRIED: {error}"
    kept = {}
    for path, text in texts.items():
        with open(f"{folder}/{path}") as it:
            kept[path] = it.read()
        with open(f"{folder}/{path}", "w") as it:
            it.write(text)
    ran = subprocess.run(["rt", "check", "--jobs", "1"], cwd=folder, stdin=subprocess.DEVNULL, stdout=subprocess.PIPE, stderr=subprocess.STDOUT, text=True, errors="replace")
    for path, text in kept.items():
        with open(f"{folder}/{path}", "w") as it:
            it.write(text)
    return verdict(ran, texts)


def copy_for(crate, lines, room):
    """Copies the crate with what its check kept, and what the libraries below it were built to."""
    if os.path.exists(f"{TOP}/HANDLES"):
        shutil.copy2(f"{TOP}/HANDLES", room)
    needed = below(crate, lines)
    with open(f"{room}/crates.txt", "w") as it:
        it.writelines(f"{name}: {' '.join(libs)}\n" for name, libs in lines.items() if name in needed)
    for name in needed:
        kept = (*PARTS, "out") if name == crate else (*PARTS, "out/rlib")
        for part in kept:
            if os.path.isdir(f"{TOP}/crates/{name}/{part}"):
                shutil.copytree(f"{TOP}/crates/{name}/{part}", f"{room}/crates/{name}/{part}")


def try_crate(crate, lines):
    """Tries each wrong body of a crate in turn. How many were refused, and how many not."""
    refused = through = 0
    with tempfile.TemporaryDirectory(prefix="wrong-bodies-") as room:
        copy_for(crate, lines, room)
        for edit in edits_of(crate):
            well, why = try_edit(edit, f"{room}/crates/{crate}")
            refused, through = refused + well, through + (not well)
            print(f"{crate}/{os.path.basename(edit)}: {why}", flush=True)
    return refused, through


def main(words):
    jobs = 2
    if words[:1] == ["--jobs"]:
        jobs, words = int(words[1]), words[2:]
    lines = libraries()
    unknown = [crate for crate in words if crate not in lines or not edits_of(crate)]
    if unknown:
        print(f"no crate with wrong bodies: {' '.join(unknown)}")
        return 2
    crates = words or [crate for crate in lines if edits_of(crate)]
    with ThreadPoolExecutor(jobs) as side_by_side:
        counts = list(side_by_side.map(lambda crate: try_crate(crate, lines), crates))
    refused, through = sum(it[0] for it in counts), sum(it[1] for it in counts)
    print(f"{refused} refused, {through} let through")
    return 0 if refused and not through else 1


if __name__ == "__main__":
    sys.exit(main(sys.argv[1:]))
