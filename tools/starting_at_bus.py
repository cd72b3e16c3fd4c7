#!/usr/bin/env python3
"""Starts tables at a bus: the nodes of an example answer at a pseudo terminal, and each gets the one EDS file of a folder that fits its device.

    python3 tools/starting_at_bus.py [NAME..]

The adapter and the slaves are those of boot_machines.py. The EDS files are an example's, with a vendor: the nodes tell what these state. Of each case it is seen
which nodes have rows and by which file, what is told of those that are left out, the status, and that the tables are planned: each TPDO that exists in a node's
file has a row, or is told as left out. Where nothing may be written, OUT stays as it was. A case whose name holds one of the words given is run, or each.
"""
import csv
import glob
import json
import os
import re
import subprocess
import sys
import tempfile

from boot_machines import RIG, asking_faults, rate_of, requests_in
from files import bytes_of, write
from starting import PROGRAM, lines_of_objects, planned

HERE = os.path.dirname(os.path.dirname(os.path.realpath(__file__)))
VENDOR = b"0x00000123"


def with_value(text, sub, value):
    """An EDS text with another value of the identity object."""
    return re.sub(rb"(?s)(\[1018sub%d\].*?DefaultValue=)[^\r\n]*" % sub, rb"\g<1>" + value, text, count=1)


def renamed(name, change):
    """Adds a changed copy of a file under another name."""
    def made(files, old):
        files[name] = change(files[old])
    return made


def changed(change):
    def made(files, old):
        files[old] = change(files[old])
    return made


def removed(files, old):
    del files[old]


def refused(text):
    """A text that plan refuses, and tidy mends with no question: a blank stands before a header."""
    return text.replace(b"[1000]", b" [1000]", 1)


# A case: the example, the words of the rig, those of the program, what becomes of the EDS files, which file each node gets, what is told of others, and the status.
IO = {11: "io.eds", 12: "io.eds", 13: "io.eds", 14: "io.eds"}
ALL = {1: "controller.eds", **IO}
CASES = {
    "the conveyor": ("conveyor", "", ["--up-to", "14"], [], ALL, [], 0),
    "the drives, which run": ("drives", "--running 1 11 12 13 21 --traffic 20", ["--up-to", "21", "--gently", "20"], [],
                              {1: "motion.eds", 11: "drive.eds", 12: "drive.eds", 13: "drive.eds", 21: "switches.eds"}, [], 0),
    "some nodes alone": ("conveyor", "--silent 11", ["--up-to", "12"], [], {1: "controller.eds", 12: "io.eds"}, [], 0),
    "a node that no file fits": ("conveyor", "", ["--up-to", "14"], [(removed, "controller.eds")], IO, ["node 1: left out, no file fits vendor 00000123 product 00000040"], 0),
    "a node that does not tell its product": (
        "conveyor", "--unread 12:1018:2:06090011", ["--up-to", "12"], [], {1: "controller.eds", 11: "io.eds"}, ["node 12: left out, no file fits vendor 00000123 product -"], 0),
    "a file that states no vendor": (
        "conveyor", "", ["--up-to", "11"], [(changed(lambda text: with_value(text, 1, b"0")), "io.eds")], {1: "controller.eds"},
        ["node 11: left out, no file fits vendor 00000123 product 00003216"], 0),
    "nodes that several files fit": (
        "conveyor", "", ["--up-to", "12"], [(renamed("another.eds", bytes), "io.eds")], {1: "controller.eds"},
        ["node 11: left out, several files fit: another.eds, io.eds", "node 12: left out, several files fit: another.eds, io.eds"], 0),
    "a file of each revision": (
        "conveyor", "--identity 12:1018:3:10003", ["--up-to", "12"], [(renamed("another.eds", lambda text: with_value(text, 3, b"0x00010003")), "io.eds")],
        {1: "controller.eds", 11: "io.eds", 12: "another.eds"}, [], 0),
    "a file that plan refuses": (
        "conveyor", "", ["--up-to", "12"], [(changed(refused), "io.eds")], {1: "controller.eds", 11: "io.eds", 12: "io.eds"},
        [r"io.eds: refused \d+ at line \d+, written as canplan tidy mends it"], 0),
    "a file that plan refuses in OUT itself": (
        "conveyor", "", ["--up-to", "11", "SAME"], [(changed(refused), "io.eds")], {1: "controller.eds"},
        [r"io.eds: left out, refused \d+ at line \d+; canplan tidy mends it", "node 11: left out, no file fits vendor 00000123 product 00003216"], 0),
    "files in OUT itself": ("conveyor", "", ["--up-to", "11", "SAME"], [], {1: "controller.eds", 11: "io.eds"}, [], 0),
    "nobody answers": ("conveyor", "--silent 1", ["--up-to", "3"], [], {}, [], 3),
    "no node has a file": ("conveyor", "", ["--up-to", "1"], [(removed, "controller.eds")], {}, ["node 1: left out, no file fits vendor 00000123 product 00000040"], 3),
    "a table that is there": ("conveyor", None, ["--up-to", "1", "HAS nodes.csv"], [], {}, [], 5),
    "an EDS file that is there": ("conveyor", "", ["--up-to", "11", "HAS io.eds"], [], {}, [], 5),
    "an EDS file that is there and that no node has": ("conveyor", "", ["--up-to", "1", "HAS io.eds"], [], {1: "controller.eds"}, [], 0),
    "lines that are no frames": ("conveyor", "--running 1 --garbled", ["--up-to", "1"], [], {}, [], 3),
}


def with_vendor(example, changes):
    """An example's EDS files with a vendor, and what becomes of them."""
    files = {os.path.basename(it): with_value(bytes_of(it), 1, VENDOR) for it in glob.glob(f"{HERE}/examples/{example}/*.eds")}
    told = dict(files)
    for change, name in changes:
        change(files, name)
    return told, files


def contents(folder):
    return {name: bytes_of(f"{folder}/{name}") for name in os.listdir(folder) if os.path.isfile(f"{folder}/{name}")}


def laid_out(example, changes, options, folder):
    """Writes the devices of the rig, the EDS files and OUT, and returns the folders of these two."""
    told, files = with_vendor(example, changes)
    out = f"{folder}/eds" if "SAME" in options else f"{folder}/out"
    for place, texts in (("rig", told), ("eds", files), ("out", {})):
        os.makedirs(f"{folder}/{place}")
        for name, text in texts.items():
            write(f"{folder}/{place}/{name}", text)
    write(f"{folder}/rig/nodes.csv", bytes_of(f"{HERE}/examples/{example}/nodes.csv"))
    for word in options:
        if word.startswith("HAS "):
            write(f"{out}/{word.removeprefix('HAS ')}", b"old")
    return f"{folder}/eds", out


def called(words, call, folder):
    """Runs a call at the port of a rig: how it ended, and what the rig saw; nothing if none is wanted."""
    if words is None:
        return subprocess.run(call, capture_output=True, text=True, timeout=120), None
    rig = subprocess.Popen([sys.executable, RIG, f"{folder}/rig/nodes.csv", f"{folder}/port", "--log", f"{folder}/log", "--report", f"{folder}/report.json", *words.split()],
                           stdout=subprocess.PIPE, text=True)
    rig.stdout.readline()
    it = subprocess.run(call, capture_output=True, text=True, timeout=120)
    rig.wait(timeout=60)
    with open(f"{folder}/report.json") as file:
        return it, json.load(file)


def table_faults(out, told, wanted, folder):
    """What is wrong with the tables of nodes and their files, and with the plan of them."""
    with open(f"{out}/nodes.csv", encoding="ascii") as it:
        devices = {int(row["node"]): row for row in csv.DictReader(it) if row["row"] == "device"}
    with open(f"{out}/pdos.csv", encoding="ascii") as it:
        rows = {(int(row["node"]), int(row["tpdo"])) for row in csv.DictReader(it)}
    if {node: (row["name"], row["eds"]) for node, row in devices.items()} != {node: (name.removesuffix(".eds"), name) for node, name in wanted.items()}:
        yield f"devices {devices}"
    for node, name in wanted.items():
        if f"node {node}: {name}\n" not in told:
            yield f"node {node} is not told"
        for tpdo, cob_id in lines_of_objects(f"{out}/{name}").items():
            is_row = (node, tpdo) in rows
            if is_row == (f"pdo {node}.{tpdo}: left out" in told) or is_row and cob_id >= 1 << 31:
                yield f"pdo {node}.{tpdo} with {cob_id:08X}h"
    if {node for node, _ in rows} - set(wanted) or f"devices {len(wanted)}, PDOs {len(rows)}, guessed periods {told.count('a guess')}\n" not in told:
        yield f"rows {rows}, counts in {told[-80:]!r}"
    status, text, said = planned(out, f"{folder}/plan")
    if status:
        yield f"plan: {status} {text} {said}"


def tried(name, folder):
    """What is wrong with a case."""
    example, words, options, changes, wanted, lines, status = CASES[name]
    eds, out = laid_out(example, changes, options, folder)
    before, files = contents(out), contents(eds)
    there = [it.removeprefix("HAS ") for it in options if it.startswith("HAS ")]
    options = [it for it in options if it != "SAME" and not it.startswith("HAS ")]
    it, seen = called(words, [PROGRAM, "init", "--port", f"{folder}/port", "--rate", rate_of(example), *options, eds, out], folder)
    faults = []
    after = contents(out)
    if it.returncode != status or any(after.get(kept) != text for kept, text in before.items()):
        faults.append(f"status {it.returncode}, or what is there is replaced: {sorted(after)}")
    lefts = [line for line in it.stdout.splitlines() if line.startswith("node ") and ": left out" in line or re.match(r"\S+\.eds: ", line)]
    if len(lefts) != len(lines) or not all(any(re.fullmatch(line, left) for left in lefts) for line in lines):
        faults.append(f"tells {lefts}, not {lines}")
    if status == 5 and not all(file in it.stderr for file in there):
        faults.append("the file that is there is not named")
    if status:
        faults += [] if after == before else [f"{sorted(after)} is written"]
    else:
        new = {*wanted.values(), "nodes.csv", "pdos.csv", "network.toml"}
        faults += [] if set(after) == new | set(before) else [f"{sorted(after)} is in OUT"]
        faults += table_faults(out, it.stdout, wanted, folder)
        faults += [] if out == eds or all(after[file] == files[file] or f"{file}: refused" in it.stdout for file in wanted.values()) else ["an EDS file is not copied as it is"]
    if seen is not None:
        is_silent = "--garbled" in words
        faults += asking_faults(requests_in(f"{folder}/log") if not is_silent else [], range(1, int(options[1]) + 1), options)
        if seen["commands"] or any(device["writes"] or device["resets"] for device in seen["devices"].values()) or is_silent and seen["frames_from_manager"]:
            faults.append("a device is written to, or reset, or asked where nothing may be sent")
    return faults + ([f"says {it.stdout!r} {it.stderr!r}"] if faults else [])


def main(words):
    passed, failed = 0, 0
    for name in CASES:
        if words and not any(word in name for word in words):
            continue
        with tempfile.TemporaryDirectory() as folder:
            faults = tried(name, folder)
        print(f"{'FAILED' if faults else 'ok'}: {name}", flush=True)
        for fault in faults:
            print(f"  {fault}")
        passed, failed = passed + (not faults), failed + bool(faults)
    print(f"{passed} passed, {failed} failed")
    return 1 if failed else 0


if __name__ == "__main__":
    sys.exit(main(sys.argv[1:]))
