#!/usr/bin/env python3
"""The manual page and docs/OPERATING.md beside the sources: each command, each option and each line that a run ends with stands there.

acceptance/manual.py needs groff. Wanted is besides that groff shows docs/fts.1 without a warning, and that no status stands there twice. Status 1 where
something is missing, each told.
"""
import os
import pathlib
import re
import subprocess
import sys

TOP = pathlib.Path(__file__).resolve().parent.parent
WORDS = TOP / "crates" / "fts_words" / "src"


def shown(page):
    """What groff shows of a page, as one line with single spaces, and its warnings."""
    words = ["groff", "-man", "-Tascii", "-P-cbou", "-ww", "-rLL=200n", page]
    ran = subprocess.run(words, capture_output=True, text=True, env={**os.environ, "LC_ALL": "C"}, check=True)
    return re.sub(r"\s+", " ", ran.stdout), ran.stderr.splitlines()


def lines_of_ends():
    """The lines of all ends, as the crates spell them, without the number behind some."""
    texts = (place.read_text() for place in TOP.glob("crates/*/src/*.rt") if place.name != "tests.rt" and "_trial" not in place.parts[-3])
    return {line.strip() for text in texts for line in re.findall(r'"(fts: [^"\\]+)(?:\\n)?"\.as_bytes|"(fts: [^"\\]+ )"', text) for line in line if line}


def names(place, pattern):
    return set(re.findall(pattern, (WORDS / place).read_text()))


def statuses(page):
    return [int(number) for number in re.findall(r"^\.IP (\d+)", page.read_text(), re.M)]


def main():
    page = TOP / "docs" / "fts.1"
    manual, missing = shown(page)
    operating = (TOP / "docs" / "OPERATING.md").read_text()
    lines, commands, options = lines_of_ends(), names("asked.rt", r'name == "(\w+)"'), names("options.rt", r'name == "(--\w+)"')
    missing += [f"docs/OPERATING.md: no line '{line}'" for line in sorted(lines) if f"`{line}" not in operating]
    missing += [f"docs/fts.1: no line '{line}'" for line in sorted(lines) if f'"{line}' not in manual]
    missing += [f"docs/fts.1: no {word}" for word in sorted(commands | options) if f" {word} " not in manual]
    missing += [f"docs/OPERATING.md: no command {word}" for word in sorted(commands) if f"{word}" not in operating]
    if statuses(page) != list(range(max(statuses(page)) + 1)):
        missing.append(f"docs/fts.1: the statuses {statuses(page)}")
    print("\n".join([*missing, f"commands {len(commands)}, options {len(options)}, lines {len(lines)}, otherwise than wanted {len(missing)}"]))
    return 1 if missing or not (lines and commands and options) else 0


if __name__ == "__main__":
    sys.exit(main())
