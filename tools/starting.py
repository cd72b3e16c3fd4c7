#!/usr/bin/env python3
"""Starts tables from EDS files, plans them, changes one thing, and holds `diff` against a comparison of its own.

    python3 tools/starting.py [EXAMPLE..]

Of the EDS files of each example `init` has to make tables that are planned at once: each TPDO that exists in a file, by another reader of such texts, has a row
or is told as left out, and nothing that is there is replaced. Each sample of `tidy` that is accepted goes to tables that are planned, or refused by what the device
itself does not let a plan do. Between two plans `diff` tells exactly the addresses whose values differ in the DCF files.
"""
import configparser
import csv
import glob
import json
import os
import re
import shutil
import subprocess
import sys
import tempfile

from files import bytes_of, write

HERE = os.path.dirname(os.path.dirname(os.path.realpath(__file__)))
PROGRAM = os.environ.get("CANPLAN", f"{HERE}/bin/canplan")
# The rules that a device's own description may break: no plan sets its COB-ID, its heartbeat, an unused PDO, or has a rate that it supports; a settings of its own.
OWN_RULES = {45, 46, 50, 51, 52}
OBJECT = re.compile(r"^([0-9a-f]{4})(?:sub([0-9a-f]+))?$")


def run(*words, folder=None):
    done = subprocess.run([PROGRAM, *words], capture_output=True, cwd=folder, stdin=subprocess.DEVNULL, timeout=600)
    return done.returncode, done.stdout.decode(errors="replace"), done.stderr.decode(errors="replace")


def sections_of(file):
    """The sections of objects of a text, by index and sub."""
    text = configparser.ConfigParser(strict=False, interpolation=None, delimiters=("=",), comment_prefixes=(";",))
    with open(file, encoding="latin-1") as it:
        text.read_string(it.read())
    found = {}
    for name in text.sections():
        at = OBJECT.match(name.lower())
        if at:
            found[int(at[1], 16), int(at[2] or "0", 16)] = {key.lower(): value.strip() for key, value in text[name].items()}
    return found


def number(text, node):
    """A number of an EDS text, with the node's number where it is asked for."""
    total = 0
    for part in text.lower().replace("$nodeid", str(node)).split("+"):
        part = part.strip()
        total += int(part, 16) if part.startswith("0x") else int(part, 8) if part.startswith("0") and part != "0" else int(part)
    return total


def value_of(keys, node):
    """The value of an object, as a number where it is one."""
    text = keys.get("parametervalue") or keys.get("defaultvalue") or "0"
    try:
        width = {1: 8, 2: 8, 3: 16, 4: 32, 5: 8, 6: 16, 7: 32, 0x15: 64, 0x1B: 64}.get(int(keys.get("datatype", "0"), 16))
        return number(text, node) % (1 << width) if width else text
    except ValueError:
        return text


def values_of(file, node):
    found = sections_of(file)
    return {at: value_of(keys, node) for at, keys in found.items() if keys.get("objecttype", "0x7").lower() not in ("0x8", "0x9", "8", "9")}


def lines_of_objects(file):
    """The TPDOs that exist by a file, for the node of a number."""
    values = values_of(file, 1)
    return {index - 0x17FF: cob_id for (index, sub), cob_id in values.items() if 0x1800 <= index <= 0x19FF and sub == 1 and isinstance(cob_id, int)}


def is_left_alone(folder, tables):
    """Whether a second call replaces nothing."""
    before = {name: bytes_of(f"{tables}/{name}") for name in os.listdir(tables)}
    status, output, said = run("init", "--explain", folder, tables)
    return (status, output) == (5, "") and "it is there already" in said and before == {name: bytes_of(f"{tables}/{name}") for name in os.listdir(tables)}


def started(folder, tables):
    """What is wrong with the tables of the EDS files of a folder."""
    status, told, said = run("init", folder, tables)
    names = sorted(name for name in os.listdir(folder) if name.endswith(".eds"))
    if status or said:
        yield f"status {status} {said}"
        return
    with open(f"{tables}/nodes.csv", encoding="ascii") as it:
        devices = [row for row in csv.DictReader(it) if row["row"] == "device"]
    with open(f"{tables}/pdos.csv", encoding="ascii") as it:
        rows = {(int(row["node"]), int(row["tpdo"])) for row in csv.DictReader(it)}
    if [row["eds"] for row in devices] != names or [int(row["node"]) for row in devices] != list(range(1, len(names) + 1)):
        yield f"devices {devices}"
    for row in devices:
        node = int(row["node"])
        for tpdo, cob_id in lines_of_objects(f"{tables}/{row['eds']}").items():
            is_row = (node, tpdo) in rows
            if is_row == (f"pdo {node}.{tpdo}: left out" in told) or is_row != (cob_id < 1 << 31 and f"pdo {node}.{tpdo}: " in told and is_row):
                yield f"pdo {node}.{tpdo} with {cob_id:08X}h"
    if f"PDOs {len(rows)}, guessed periods {told.count('a guess')}\n" not in told:
        yield f"counts in {told[-80:]!r}"
    if not is_left_alone(folder, tables):
        yield "what is there is replaced, or no fault"


def differences(old, new):
    """By a reader of its own: what becomes of each node between two folders of plans, with the addresses whose values differ."""
    found = {}
    for node in range(1, 128):
        files = [f"{folder}/node-{node:03}.dcf" for folder in (old, new)]
        there = [os.path.exists(it) for it in files]
        if there == [True, True]:
            before, after = (values_of(it, node) for it in files)
            found[node] = {f"{at[0]:04X}.{at[1]:02X}" for at in before.keys() | after.keys() if before.get(at) != after.get(at)}
        elif any(there):
            found[node] = "new" if there[1] else "gone"
    return found


def told_differences(text):
    """The same by the lines of diff."""
    found, node = {}, None
    for line in text.splitlines():
        head = re.match(r"node (\d+): (.*)$", line)
        at = re.match(r"  ([0-9A-F]{4}\.[0-9A-F]{2}) ", line)
        if head:
            node = int(head[1])
            found[node] = head[2] if head[2] in ("new", "gone") else set()
        elif at:
            found[node].add(at[1])
    return found


def compared(old, new):
    """What is wrong with what diff tells of two folders."""
    wanted = differences(old, new)
    rates = [bytes_of(f"{folder}/plan.txt").split(b"\n")[0].decode() for folder in (old, new)]
    is_same = rates[0] == rates[1] and not any(wanted.values())
    status, lines, said = run("diff", old, new)
    if status != (0 if is_same else 3) or said:
        yield f"status {status} {said}"
    if told_differences(lines) != wanted:
        yield f"{told_differences(lines)} is told, not {wanted}"
    if (lines.split("\n")[0] == f"{rates[0]} -> {rates[1].split()[1]}") != (rates[0] != rates[1]):
        yield f"rates {rates} in {lines[:40]!r}"
    document = json.loads(run("diff", "--json", old, new)[1])
    nodes = {it["node"]: it["state"] if it["state"] in ("new", "gone") else {f"{v['index']:04X}.{v['sub']:02X}" for v in it["values"]} for it in document["nodes"]}
    if nodes != wanted or document["same"] != is_same:
        yield f"--json tells {nodes}"


def changed(tables, other):
    """Copies tables with the first PDO sent four times as often, another heartbeat, and without the last device."""
    shutil.copytree(tables, other, ignore=shutil.ignore_patterns("plan*"))
    lines = bytes_of(f"{tables}/pdos.csv").decode().splitlines()
    last = max(int(line.split(",")[1]) for line in bytes_of(f"{tables}/nodes.csv").decode().splitlines() if line.startswith("device"))
    kept = [lines[0]] + [line for line in lines[1:] if last == 1 or line.split(",")[0] != str(last)]
    fields = kept[-1].split(",")
    if len(kept) > 1 and fields[2] != "0":
        kept[-1] = ",".join([fields[0], fields[1], "20000", fields[3], "20000", *fields[5:]])
    write(f"{other}/pdos.csv", "\n".join([*kept, ""]).encode())
    text = bytes_of(f"{tables}/nodes.csv").decode().splitlines()
    rest = [line for line in text if last == 1 or line.split(",")[1] != str(last)]
    rest = [line.replace(",,,1000000,", ",,,500000,") if line.startswith("heartbeat,1,") else line for line in rest]
    write(f"{other}/nodes.csv", "\n".join([*rest, ""]).encode())


def planned(tables, out):
    os.makedirs(out)
    return run("plan", f"{tables}/network.toml", out)


def example(name, folder):
    """What is wrong with the tables and plans of an example's EDS files."""
    eds, tables = f"{folder}/eds", f"{folder}/tables"
    os.makedirs(eds)
    os.makedirs(tables)
    for file in glob.glob(f"{HERE}/examples/{name}/*.eds"):
        shutil.copy(file, eds)
    yield from started(eds, tables)
    status, text, said = planned(tables, f"{tables}/plan")
    if status:
        yield f"plan: {status} {text} {said}"
        return
    changed(tables, f"{folder}/other")
    status, text, said = planned(f"{folder}/other", f"{folder}/other/plan")
    if status:
        yield f"the second plan: {status} {text} {said}"
        return
    for old, new in ((f"{tables}/plan", f"{tables}/plan"), (f"{tables}/plan", f"{folder}/other/plan"), (f"{folder}/other/plan", f"{tables}/plan")):
        yield from compared(old, new)


def sample(file, folder):
    """What is wrong with the tables of one sample; nothing if init leaves it out."""
    eds, tables = f"{folder}/eds", f"{folder}/tables"
    os.makedirs(eds)
    os.makedirs(tables)
    shutil.copy(file, f"{eds}/unit.eds")
    status, told, said = run("init", eds, tables)
    if status == 3 and "unit.eds: left out, " in told:
        return
    if status:
        yield f"status {status} {told} {said}"
        return
    status, text, said = planned(tables, f"{tables}/plan")
    number = re.match(r"canplan: refused (\d+) ", said)
    if status not in (0, 4) and not (status == 3 and number and int(number[1]) in OWN_RULES):
        yield f"plan: {status} {text} {said}"


def main(names):
    names = names or ["conveyor", "crane", "drives", "valve", "second-range", "sdo-refusal"]
    samples = [] if len(sys.argv) > 1 else sorted(glob.glob(f"{HERE}/crates/tidy_samples/data/*/*.eds"))
    faults = []
    for number, (kind, name) in enumerate([(example, it) for it in names] + [(sample, it) for it in samples]):
        with tempfile.TemporaryDirectory() as folder:
            found = [f"{os.path.basename(name)}: {it}" for it in kind(name, folder)]
        for fault in found:
            print(fault)
        faults += found
    print(f"{len(names)} examples and {len(samples)} samples, {len(faults)} faults")
    return 1 if faults else 0


if __name__ == "__main__":
    sys.exit(main(sys.argv[1:]))
