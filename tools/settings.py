#!/usr/bin/env python3
"""Plans the conveyor with tables of settings, and looks at what becomes of them.

    python3 tools/settings.py

Rows that are refused end with status 3, their number and record, in JSON with the table, the file and the line, and no file is written. Values that are
taken stand in the DCF file, in the concise DCF between the COB-IDs that are switched off and on, and on the page of a report, by their bytes; the plan and
its refusals are those without them.
"""
import json
import os
import re
import subprocess
import sys
import tempfile

from files import bytes_of, status_of, write

HERE = os.path.dirname(os.path.dirname(os.path.realpath(__file__)))
PROGRAM = os.environ.get("CANPLAN", f"{HERE}/bin/canplan")
TABLES = [f"{HERE}/examples/conveyor/{file}" for file in ("nodes.csv", "pdos.csv")]
HEADER = "row,node,object,value\n"
# Rows, and the number and record that they are refused with.
REFUSED = (
    ("", 40, 0, None),
    (HEADER + "set,11,6206.1\n", 40, 1, None),
    (HEADER + "get,11,6206.1,1\n", 41, 1, "row"),
    (HEADER + "set,200,6206.1,1\n", 41, 1, "node"),
    (HEADER + "set,11,6206,1,\n", 40, 1, None),
    (HEADER + "set,11,06206,1\n", 41, 1, "object"),
    (HEADER + "set,11,6206.1,on\n", 41, 1, "value"),
    (HEADER + "set,11,6206.1,1\n\nset,11,6206.01,1\n", 42, 2, None),
    (HEADER + "set,10,6206.1,1\n", 42, 1, None),
    (HEADER + "set,11,6206.1,1\nset,11,1800.1,1\n", 57, 2, None),
    (HEADER + "set,11,6000.1,1\n", 54, 1, None),
    (HEADER + "set,11,6206.1,256\n", 55, 1, None),
    (HEADER + "set,11,6206.1,-1\n", 55, 1, None),
    (HEADER + "set,11,6206.5,1\n", 55, 1, None),
    (HEADER + "set,11,6207.1,1\n", 55, 1, None),
)
# What is asked of node 11, and its bytes in the concise DCF: index, sub, length, value.
TAKEN = ("set,11,6206.1,0xF0\nset,12,6206.2,1\nset,11,6206.2,$NODEID+4\n", ["0662010100" "0000f0", "0662020100" "00000f"])


def run(folder, *words):
    done = subprocess.run([PROGRAM, *words], capture_output=True, cwd=folder, stdin=subprocess.DEVNULL)
    return done.returncode, done.stdout, done.stderr.decode()


def refused(folder):
    """The rows that are not refused as they have to be."""
    faults = []
    for text, number, record, column in REFUSED:
        write(f"{folder}/s.csv", text.encode())
        os.makedirs(f"{folder}/out", exist_ok=True)
        status, output, said = run(folder, "plan", "--explain", "--setup", "s.csv", *TABLES, "out")
        if (status, output) != (3, b"") or not said.startswith(f"canplan: refused {number} {record}\ns.csv") or f"\nrule {number}: " not in said or os.listdir(f"{folder}/out"):
            faults.append(f"{text!r}: {status} {said}")
        document = json.loads(run(folder, "plan", "--json", "--setup", "s.csv", *TABLES, "out")[1])["error"]
        line = text.count("\n") if record else 1 if text else None
        if [document[key] for key in ("number", "record", "column", "table", "file", "file_line")] != [number, record, column, "setup", "s.csv", line]:
            faults.append(f"{text!r} with --json: {document}")
    return faults


def taken(folder):
    """What is wrong with values that are taken."""
    faults = []
    write(f"{folder}/s.csv", (HEADER + TAKEN[0]).encode())
    for name in ("with", "without", "cdcf"):
        os.makedirs(f"{folder}/{name}", exist_ok=True)
    setup = ["--setup", "s.csv"]
    if run(folder, "plan", *TABLES, "without") != run(folder, "plan", *setup, *TABLES, "with"):
        faults.append("the plan is another one")
    same = ("plan.txt", "refusals.csv", "node-001.dcf", "node-013.dcf")
    faults += [f"{name} is another one" for name in same if bytes_of(f"{folder}/with/{name}") != bytes_of(f"{folder}/without/{name}")]
    lines = {name: bytes_of(f"{folder}/{name}/node-011.dcf").decode().splitlines() for name in ("with", "without")}
    more = [line for line in lines["with"] if line not in lines["without"]]
    if more != ["ParameterValue=0xF0", "ParameterValue=0x0F"] or len(lines["with"]) != len(lines["without"]) + 2:
        faults.append(f"the DCF has {more} more")
    run(folder, "export", "cdcf", *setup, *TABLES, "cdcf", "--manager", "1")
    form = bytes_of(f"{folder}/cdcf/node-011.cdcf").hex()
    found = [form.find(one) for one in ("0662010100" "0000f0", "0662020100" "00000f")]
    cob_ids = [match.start() for match in re.finditer("18010400" "0000", form)]
    if -1 in found or found != sorted(found) or not any(at < found[0] for at in cob_ids) or not any(at > found[1] for at in cob_ids):
        faults.append(f"the concise DCF is {form}")
    run(folder, "report", *setup, *TABLES, "page.html")
    page = bytes_of(f"{folder}/page.html").decode()
    if re.findall(r"<li>(6206h sub \d is set to \w+)</li>", page) != ["6206h sub 1 is set to F0h", "6206h sub 2 is set to 0Fh", "6206h sub 2 is set to 01h"]:
        faults.append("the page of the report has not what is asked")
    if run(folder, "boot", "--seed", "3", *setup, *TABLES) != run(folder, "boot", "--seed", "3", *TABLES):
        faults.append("the boot by a seed ends otherwise")
    return faults


def main():
    with tempfile.TemporaryDirectory() as folder:
        faults = refused(folder) + taken(folder)
    return status_of(faults)


if __name__ == "__main__":
    sys.exit(main())
