#!/usr/bin/env python3
"""Lets the writes of `plan` fail in several ways, and looks at what it says and what stands in the folder afterwards.

    python3 tools/failing_writes.py

The folder is missing, is a file, or may not be written; a name that is wanted is a folder already; a file grows above the
limit that the system sets; standard output is full. The message names the file that was wanted, the status is 5, the files
before it are whole, and no part of a file is left behind.
"""
import os
import resource
import signal
import subprocess
import sys
import tempfile

HERE = os.path.dirname(os.path.dirname(os.path.realpath(__file__)))
VALVE = f"{HERE}/examples/valve"
PROGRAM = os.environ.get("CANPLAN", f"{HERE}/bin/canplan")
FILES = ["plan.txt", "refusals.csv", "node-005.dcf"]


def bytes_of(file):
    with open(file, "rb") as it:
        return it.read()


def plan(folder, most=None, stdout=subprocess.PIPE):
    """Status and standard error of a plan into a folder, where no file may grow above so many bytes."""

    def limited():
        if most is not None:
            signal.signal(signal.SIGXFSZ, signal.SIG_IGN)
            resource.setrlimit(resource.RLIMIT_FSIZE, (most, most))

    words = [PROGRAM, "plan", f"{VALVE}/nodes.csv", f"{VALVE}/pdos.csv", folder]
    it = subprocess.run(words, stdout=stdout, stderr=subprocess.PIPE, preexec_fn=limited)
    return it.returncode, it.stderr


def faults(case, folder, answer, failed, whole):
    """What is wrong after a plan that failed at a file, before which others stand whole."""
    if answer != (5, f"canplan: file {failed}\n".encode()):
        yield f"{case}: it said {answer}"
    there = sorted(it for it in os.listdir(folder) if os.path.isfile(f"{folder}/{it}")) if os.path.isdir(folder) else []
    if there != sorted(whole):
        yield f"{case}: in the folder stand {there}"
    for name in whole:
        if bytes_of(f"{folder}/{name}") != bytes_of(f"{VALVE}/{name}"):
            yield f"{case}: {name} is not whole"


def of_folders(top):
    missing = f"{top}/missing"
    yield from faults("no folder", missing, plan(missing), f"{missing}/plan.txt", [])
    file = f"{top}/file"
    open(file, "wb").close()
    yield from faults("a file for a folder", file, plan(file), f"{file}/plan.txt", [])
    if os.geteuid() != 0:
        closed = f"{top}/closed"
        os.mkdir(closed, 0o500)
        yield from faults("a closed folder", closed, plan(closed), f"{closed}/plan.txt", [])


def of_names(top):
    for at, name in enumerate(FILES):
        folder = f"{top}/taken-{at}"
        os.makedirs(f"{folder}/{name}")
        yield from faults(f"{name} is a folder", folder, plan(folder), f"{folder}/{name}", FILES[:at])


def of_room(top):
    sizes = [os.path.getsize(f"{VALVE}/{name}") for name in FILES]
    for at, name in enumerate(FILES):
        if all(size < sizes[at] for size in sizes[:at]):
            folder = f"{top}/room-{at}"
            os.mkdir(folder)
            answer = plan(folder, most=sizes[at] - 1)
            yield from faults(f"no room for {name}", folder, answer, f"{folder}/{name}", FILES[:at])
    folder = f"{top}/full"
    os.mkdir(folder)
    with open("/dev/full", "wb") as full:
        yield from faults("standard output is full", folder, plan(folder, stdout=full), "-", [])


def main():
    found = []
    with tempfile.TemporaryDirectory() as top:
        for cases in (of_folders, of_names, of_room):
            found += cases(top)
    print("\n".join(found) or "ok")
    return 1 if found else 0


if __name__ == "__main__":
    sys.exit(main())
