#!/usr/bin/env python3
"""Feeds the program files that nobody means well with, and files that are cut off.

    python3 tools/hostile_files.py [large | cut]

`large`: tables and EDS files that are as large as is read, of one line, of empty lines, of brackets, of quotes; each at half
its size and at its whole size. Told are the status, standard error, the seconds of processor time of both runs, and the
memory of the second. Wrong is an answer that is neither a plan nor a refusal, and a time that grows by far more than the
file.

`cut`: each table, EDS file and refusal file of the examples, and two traces, cut off at each byte, by `check` or `judge`. Wrong
is an answer that is neither an answer nor a refusal.

Without a word both are done.
"""
import json
import os
import re
import subprocess
import sys
import tempfile
import time
from concurrent.futures import ThreadPoolExecutor

from files import bytes_of, write

HERE = os.path.dirname(os.path.dirname(os.path.realpath(__file__)))
EXAMPLES = f"{HERE}/examples"
PROGRAM = f"{HERE}/crates/canplan/out/canplan"
REFUSED = re.compile(rb"canplan: refused \d+ \d+\n")
KIB, MIB = 2**10, 2**20

NODES = b"row,node,name,eds,period,jitter\n"
PDOS = b"node,tpdo,period,jitter,deadline,consumers\n"
STREAMS = b"id,bytes,period,jitter,deadline\n"


# Runs a command in a small process of its own, since a child's peak of memory begins at what its parent holds.
MEASURE = """
import json, os, subprocess, sys
process = subprocess.Popen(sys.argv[1:], stdout=subprocess.DEVNULL, stderr=subprocess.PIPE)
told = process.stderr.read().decode(errors="replace")
_, status, used = os.wait4(process.pid, 0)
json.dump([os.waitstatus_to_exitcode(status), told, used.ru_utime + used.ru_stime, used.ru_maxrss], sys.stdout)
"""


def measured(words):
    """Status, standard error, seconds of processor time and KiB of memory of a run."""
    done = subprocess.run([sys.executable, "-c", MEASURE, PROGRAM, *words], capture_output=True)
    status, told, seconds, kib = json.loads(done.stdout)
    return status, told.encode(), seconds, kib


def run(words):
    """Status and standard error of a run."""
    done = subprocess.run([PROGRAM, *words], stdout=subprocess.DEVNULL, stderr=subprocess.PIPE)
    return done.returncode, done.stderr


def is_answer(status, told):
    """Whether a run ended as one may: with an answer, or with a refusal that has its number and place."""
    return status == 0 or status in (3, 4) and told == b"" or status == 3 and REFUSED.fullmatch(told) is not None


def to_size(piece, size):
    return piece * (size // len(piece))


def large_files(size):
    """Hostile contents by name: which file of the valve's network, or of `test`, they stand in for."""
    table = size * 16
    yield "streams: one line of digits", "streams", STREAMS + to_size(b"1", table)
    yield "streams: empty lines", "streams", STREAMS + b"\n" * table
    yield "streams: quotes", "streams", STREAMS + to_size(b'"', table)
    yield "streams: commas", "streams", STREAMS + to_size(b",", table)
    yield "streams: no line end, no header", "streams", to_size(b"x", table)
    yield "streams: rows that repeat", "streams", STREAMS + to_size(b"0x181,8,1000,0,\n", table)
    yield "nodes: one line", "nodes.csv", NODES + to_size(b"x", table)
    yield "nodes: a million empty lines", "nodes.csv", NODES + b"\n" * (table // 64)
    yield "nodes: devices that repeat", "nodes.csv", NODES + to_size(b"device,5,Valve,unit.eds,,\n", table)
    yield "pdos: one line", "pdos.csv", PDOS + to_size(b"9", table)
    yield "pdos: a million empty lines", "pdos.csv", PDOS + b"\n" * (table // 64)
    yield "pdos: consumers without end", "pdos.csv", PDOS + b"5,1,10000,0,10000," + to_size(b"5.1 ", table)
    yield "EDS: one line", "unit.eds", to_size(b"x", size)
    yield "EDS: brackets", "unit.eds", to_size(b"[", size)
    yield "EDS: bracketed lines", "unit.eds", to_size(b"[]\n", size)
    yield "EDS: a section again and again", "unit.eds", to_size(b"[1000]\n", size)
    yield "EDS: sections, each another", "unit.eds", b"".join(b"[%x]\n" % it for it in range(size // 8))
    yield "EDS: a key again and again", "unit.eds", b"[1000]\n" + to_size(b"a=1\n", size - 16)
    yield "EDS: keys, each another", "unit.eds", b"[1000]\n" + b"".join(b"%x=\n" % it for it in range(size // 9))
    yield "EDS: comments", "unit.eds", to_size(b";\n", size)
    yield "EDS: zero bytes", "unit.eds", to_size(b"\0", size)
    yield "EDS: list without objects", "unit.eds", b"[MandatoryObjects]\nSupportedObjects=65535\n" + to_size(b"1=\n", size - 99)


def network(folder, replaced, content):
    """The valve's network in a folder, where one file has another content."""
    for name in "nodes.csv", "pdos.csv", "unit.eds":
        write(f"{folder}/{name}", bytes_of(f"{EXAMPLES}/valve/{name}"))
    write(f"{folder}/{replaced}", content)
    return [f"{folder}/nodes.csv", f"{folder}/pdos.csv"]


def words_of(folder, replaced, content):
    tables = network(folder, replaced, content)
    if replaced == "streams":
        return ["test", "--rate", "125", f"{folder}/streams"]
    return ["plan", *tables, folder]


def large(folder):
    wrong = 0
    print("| file | MiB | status | said | seconds | MiB of memory |\n|---|---:|---:|---|---:|---:|")
    halves = {name: (replaced, content) for name, replaced, content in large_files(2 * MIB)}
    for name, replaced, content in large_files(4 * MIB - KIB):
        _, _, half, _ = measured(words_of(folder, *halves[name]))
        status, told, seconds, kib = measured(words_of(folder, replaced, content))
        is_wrong = not is_answer(status, told) or seconds > 0.2 and seconds > 4 * half
        wrong += is_wrong
        said = told.decode(errors="replace").strip()
        print(
            f"| {name} | {len(content) / MIB:.0f} | {status} | {said} | {half:.2f}, {seconds:.2f} "
            f"| {kib / KIB:.0f} |{' WRONG' if is_wrong else ''}",
            flush=True,
        )
    return wrong


def cut_calls():
    """The words of each call with the file in it that is cut."""
    for example in "valve", "conveyor", "crane", "drives", "second-range", "sdo-refusal":
        folder = f"{EXAMPLES}/{example}"
        eds = sorted(it for it in os.listdir(folder) if it.endswith(".eds"))
        for name in ["nodes.csv", "pdos.csv", "refusals.csv", *eds]:
            yield folder, name, ["check", "nodes.csv", "pdos.csv", "refusals.csv"]
    for example in "valve", "drives":
        yield f"{EXAMPLES}/{example}", "trace.csv", ["judge", "nodes.csv", "pdos.csv", "trace.csv"]


def wrong_cuts(room, folder, name, words):
    """The lengths at which a file, cut off there, ends a call as it should not. Each file has a folder of its own."""
    for other in os.listdir(folder):
        write(f"{room}/{other}", bytes_of(f"{folder}/{other}"))
    content = bytes_of(f"{folder}/{name}")
    words = [words[0], *(f"{room}/{it}" for it in words[1:])]
    found = []
    for length in range(len(content)):
        write(f"{room}/{name}", content[:length])
        status, told = run(words)
        if not is_answer(status, told):
            found.append((length, status, told))
    return len(content), found


def cut(top):
    wrong = 0
    with ThreadPoolExecutor(os.cpu_count()) as pool:
        jobs = []
        for number, (folder, name, words) in enumerate(cut_calls()):
            room = f"{top}/{number}"
            os.mkdir(room)
            jobs.append((folder, name, pool.submit(wrong_cuts, room, folder, name, words)))
        for folder, name, job in jobs:
            count, found = job.result()
            wrong += len(found)
            print(f"{os.path.basename(folder)} {name}: {count} lengths, {f'{len(found)} WRONG {found[:2]}' if found else 'ok'}")
    return wrong


def main(words):
    begun, wrong = time.monotonic(), 0
    with tempfile.TemporaryDirectory(prefix="hostile-") as top:
        if words in ([], ["large"]):
            wrong += large(top)
        if words in ([], ["cut"]):
            wrong += cut(top)
    print(f"{wrong} wrong, {time.monotonic() - begun:.0f} s")
    return 1 if wrong else 0


if __name__ == "__main__":
    sys.exit(main(sys.argv[1:]))
