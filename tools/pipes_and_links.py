#!/usr/bin/env python3
"""Has the program read from pipes, write to links, pipes and devices, and write over an earlier plan, and looks at what is left.

    python3 tools/pipes_and_links.py

A regular file, or a new one, is written whole under another name and renamed; a link stays, and its file is written; what a
pipe or a device takes is written into it, and it stays what it is. The words of a fault are of what was read, also where it
comes from a pipe and can be read but once. A plan that is written removes the DCF files of nodes that it does not have, and no
other file; one that is refused removes none.
"""
import os
import stat
import subprocess
import sys
import tempfile
import threading

from files import bytes_of, write

HERE = os.path.dirname(os.path.dirname(os.path.realpath(__file__)))
VALVE = f"{HERE}/examples/valve"
TABLES = [f"{VALVE}/nodes.csv", f"{VALVE}/pdos.csv"]
PROGRAM = os.environ.get("CANPLAN", f"{HERE}/bin/canplan")
FILES = ["plan.txt", "refusals.csv", "node-005.dcf"]


def run(*words, given=b""):
    """Status, standard output and standard error. What hangs ends the script."""
    it = subprocess.run([PROGRAM, *words], input=given, capture_output=True, timeout=60)
    return it.returncode, it.stdout, it.stderr


def read_of(pipe, words):
    """What a run answers, and what comes out of a pipe while it runs."""
    found = []
    reader = threading.Thread(target=lambda: found.append(bytes_of(pipe)))
    reader.start()
    answer = run(*words)
    reader.join(60)
    return answer, found


def device_like_full(top):
    """A device that is full, to write to: one of our own, since a wrong program may replace it; a link where that is not allowed."""
    device = f"{top}/full"
    try:
        os.mknod(device, 0o666 | stat.S_IFCHR, os.stat("/dev/full").st_rdev)
        with open(device, "rb"):
            return device
    except OSError:
        if os.path.lexists(device):
            os.remove(device)
        os.symlink("/dev/full", device)
        return device


def of_reports(top):
    page, kept, link, pipe = (f"{top}/{name}" for name in ("page.html", "kept.html", "link.html", "pipe.html"))
    run("report", *TABLES, page)
    write(kept, b"old")
    os.symlink("kept.html", link)
    if run("report", *TABLES, link) != (0, b"", b"") or not os.path.islink(link) or bytes_of(kept) != bytes_of(page):
        yield "a report to a link"
    new = f"{top}/new-link.html"
    os.symlink("new.html", new)
    if run("report", *TABLES, new) != (0, b"", b"") or not os.path.islink(new) or bytes_of(new) != bytes_of(page):
        yield "a report to a link that leads to no file yet"
    os.mkfifo(pipe)
    answer, found = read_of(pipe, ["report", *TABLES, pipe])
    if answer != (0, b"", b"") or found != [bytes_of(page)] or not stat.S_ISFIFO(os.lstat(pipe).st_mode):
        yield "a report to a pipe"
    full = device_like_full(top)
    before = os.lstat(full)
    if run("report", *TABLES, full) != (5, b"", f"canplan: file {full}\n".encode()) or os.lstat(full).st_ino != before.st_ino:
        yield "a report to a device that is full"
    if any(name.endswith(".part") for name in os.listdir(top)):
        yield "a part of a report"


def of_plans(top):
    out, kept = f"{top}/out", f"{top}/kept.csv"
    os.mkdir(out)
    write(kept, b"old")
    os.mkfifo(f"{out}/plan.txt")
    os.symlink(kept, f"{out}/refusals.csv")
    answer, found = read_of(f"{out}/plan.txt", ["plan", *TABLES, out])
    if answer != (0, bytes_of(f"{VALVE}/plan.txt"), b"") or found != [bytes_of(f"{VALVE}/plan.txt")]:
        yield "a plan to a pipe"
    if not os.path.islink(f"{out}/refusals.csv") or bytes_of(kept) != bytes_of(f"{VALVE}/refusals.csv"):
        yield "refusals to a link"
    os.remove(f"{out}/plan.txt")
    os.remove(f"{out}/node-005.dcf")
    os.symlink("/dev/full", f"{out}/node-005.dcf")
    status, _, said = run("plan", *TABLES, out)
    if (status, said) != (5, f"canplan: file {out}/node-005.dcf\n".encode()) or not os.path.islink(f"{out}/node-005.dcf"):
        yield "a DCF file to a device that is full"
    if sorted(os.listdir(out)) != sorted(FILES):
        yield "a part of a plan"


def of_earlier_plans(top):
    out = f"{top}/earlier"
    os.mkdir(out)
    others = ["node-7.dcf", "node-000.dcf", "node-128.dcf", "node-007.dcf.part", "other.dcf", "node-007.eds"]
    for name in others + ["node-001.dcf", "node-127.dcf"]:
        write(f"{out}/{name}", b"earlier")
    os.mkdir(f"{out}/node-009.dcf")
    os.symlink("other.dcf", f"{out}/node-008.dcf")
    before = sorted(os.listdir(out))
    if run("plan", *reversed(TABLES), out)[0] != 3 or sorted(os.listdir(out)) != before:
        yield "the files of an earlier plan after one that is refused"
    run("plan", *TABLES, out)
    if sorted(os.listdir(out)) != sorted(FILES + others + ["node-009.dcf"]) or bytes_of(f"{out}/other.dcf") != b"earlier":
        yield "the files of an earlier plan after one with other nodes"
    late = f"{top}/late.csv"
    write(late, bytes_of(TABLES[1]).replace(b",670,", b",1,"))
    if run("plan", TABLES[0], late, out)[0] != 4 or os.path.exists(f"{out}/node-005.dcf"):
        yield "the DCF files of an earlier plan after one where no rate passes"


def of_words(top):
    wrong = bytes_of(TABLES[1]).replace(b"5,1,10000", b"5,1,10 ms")
    said = run("plan", "--explain", TABLES[0], "/dev/stdin", top, given=wrong)[2]
    if not said.startswith(b"canplan: refused 41 1\n/dev/stdin, line 2: 5,1,10 ms,0,670,\nwanted in column period: "):
        yield f"the words of a table that is read from a pipe: {said}"
    streams = b"id,bytes,period,jitter,deadline\n0x181,9,10000,0,\n"
    said = run("test", "--explain", "--rate", "125", "-", given=streams)[2]
    if not said.startswith(b"canplan: refused 4 1\nstandard input, line 2: 0x181,9,10000,0,\nrule 4: "):
        yield f"the words of a table on standard input: {said}"
    missing = f"{top}/missing.csv"
    said = run("plan", "--explain", TABLES[0], missing, top)[2]
    if not said.startswith(f"canplan: file {missing}\nit cannot be read: ".encode()):
        yield f"the words of a file that is missing: {said}"


def of_standard_output():
    help_words = f"'{PROGRAM}' --help | true; exit ${{PIPESTATUS[0]}}"
    it = subprocess.run(["bash", "-c", help_words], capture_output=True)
    if (it.returncode, it.stderr) != (0, b""):
        yield f"help whose reader has gone: {it}"
    with open("/dev/full", "wb") as full:
        words = [PROGRAM, "test", "--explain", "--rate", "125", f"{HERE}/examples/three-frames.csv"]
        it = subprocess.run(words, stdout=full, stderr=subprocess.PIPE)
    if it.returncode != 5 or not it.stderr.startswith(b"canplan: file -\nstandard output cannot be written: "):
        yield f"the words of a full standard output: {it}"


def main():
    found = list(of_standard_output())
    for cases in (of_reports, of_plans, of_earlier_plans, of_words):
        with tempfile.TemporaryDirectory() as top:
            found += cases(top)
    print("\n".join(found) or "ok")
    return 1 if found else 0


if __name__ == "__main__":
    sys.exit(main())
