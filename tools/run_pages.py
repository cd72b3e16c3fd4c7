#!/usr/bin/env python3
"""Runs the commands that the pages show, and compares what they print with what the pages have below them.

    tools/run_pages.py [PAGE ..]

A command is a line of a block of code that begins with `$ `; without pages it takes those of README.md, docs/manual/*.md and examples/README.md. The
commands of a page run one after another in a folder of its own, which has what they read: examples/, docs/manual/ and the samples of makers' EDS files.
`canplan` and `bin/canplan` are the program that CANPLAN names, or bin/canplan. A line `..` of a page is for any lines, but for a fault of the program.
If a page shows nothing below a command, the command has to end with status 0. What is not run is told with its reason.
"""
import glob
import os
import re
import shutil
import subprocess
import sys
import tempfile

from files import status_of

HERE = os.path.dirname(os.path.dirname(os.path.realpath(__file__)))
PROGRAM = os.environ.get("CANPLAN", f"{HERE}/bin/canplan")
PAGES = ("README.md", "docs/manual/*.md", "examples/README.md")
NEEDED = ("examples", "docs/manual", "crates/tidy_samples/data")
# What a command may have that keeps it from being run, and why.
NOT_RUN = ((" --port ", "it needs a CAN adapter"),)
# What a page has done by words, before its first command.
BEFORE = {"examples/README.md": "mkdir -p out"}
ANY = ("..", "…")
UNPROVED = "canplan: unproved"


def blocks(lines):
    """The blocks of code of a page: lists of the number and the text of each line."""
    block, is_blank = [], True
    for number, line in enumerate([*lines, ""], 1):
        is_code = line.startswith("    ") and (block or is_blank)
        if is_code:
            block.append((number, line[4:]))
        elif block:
            yield block
            block = []
        is_blank = not line.strip()


def commands(lines):
    """The commands of a page: the number of the line, the command, and the lines that are shown below it."""
    for block in blocks(lines):
        found = []
        for number, line in block:
            if line.startswith("$ "):
                found.append((number, line[2:], []))
            elif found:
                found[-1][2].append(line)
        yield from found


def is_like(shown, status, lines):
    """Whether lines are those that are shown, with `..` for any but a fault; or, if none is shown, whether all went well."""
    if not shown or any(line.startswith("canplan: ") and line not in shown for line in lines):
        return not shown and status == 0
    parts = ["(?:[^\n]*\n)*" if line.strip() in ANY else re.escape(line + "\n") for line in shown]
    return re.fullmatch("".join(parts), "".join(line + "\n" for line in lines)) is not None


def made_in(folder):
    """Makes a folder that has what commands read, and `bin/canplan` as the program."""
    for part in NEEDED:
        shutil.copytree(f"{HERE}/{part}", f"{folder}/{part}")
    os.makedirs(f"{folder}/bin")
    with open(f"{folder}/bin/canplan", "w", encoding="utf-8") as it:
        it.write(f"#!/bin/sh\nexec '{PROGRAM}' \"$@\"\n")
    os.chmod(f"{folder}/bin/canplan", 0o755)


def run(command, folder):
    """The status of a command, and what it prints, as lines, but for what `tools/unproved` says of the program."""
    words = {**os.environ, "PATH": f"{folder}/bin:{os.environ['PATH']}", "LC_ALL": "C"}
    done = subprocess.run(["sh", "-c", command], cwd=folder, env=words, stdin=subprocess.DEVNULL, stdout=subprocess.PIPE, stderr=subprocess.STDOUT, timeout=600)
    return done.returncode, [it for it in done.stdout.decode(errors="replace").splitlines() if it != UNPROVED]


def faults_of(page, counts):
    """What a page shows that is not so."""
    with open(f"{HERE}/{page}", encoding="utf-8") as it:
        found = list(commands(it.read().splitlines()))
    with tempfile.TemporaryDirectory() as folder:
        made_in(folder)
        run(BEFORE.get(page, "true"), folder)
        for number, command, shown in found:
            reasons = [reason for word, reason in NOT_RUN if word in f"{command} "]
            if reasons:
                print(f"{page}:{number}: not run: {reasons[0]}")
                continue
            counts.append(page)
            status, printed = run(command, folder)
            if not is_like(shown, status, printed):
                yield "\n".join([f"{page}:{number}: {command}", *(f"  shown   {line}" for line in shown), *(f"  printed {line}" for line in printed)])


def main(named):
    pages = named or [os.path.relpath(it, HERE) for page in PAGES for it in sorted(glob.glob(f"{HERE}/{page}"))]
    counts = []
    faults = [fault for page in pages for fault in faults_of(page, counts)]
    print(f"{len(counts)} commands of {len(set(counts))} pages were run")
    return status_of(faults)


if __name__ == "__main__":
    sys.exit(main(sys.argv[1:]))
