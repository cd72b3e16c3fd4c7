#!/usr/bin/env python3
"""Reads the DCF files of the examples with Python's own reader of such texts, and compares them with their EDS files.

    python3 tools/read_dcf.py [FOLDER..]

Each DCF has to have the lines of its EDS file in their order, but for the keys that a plan sets; and read again it has to
differ in these keys alone, which are those of the node, its name and its rate in the tables and the plan.
"""
import configparser
import csv
import glob
import os
import sys

HERE = os.path.dirname(os.path.dirname(os.path.realpath(__file__)))
SET = {"parametervalue", "lasteds", "nodeid", "nodename", "baudrate"}


def lines_of(file):
    with open(file, encoding="latin-1", newline="") as it:
        return it.read().splitlines()


def read(lines):
    text = configparser.ConfigParser(strict=True, interpolation=None, delimiters=("=",), comment_prefixes=(";",))
    text.read_string("\n".join(lines))
    return {name.lower(): dict(text[name]) for name in text.sections()}


def is_set(line):
    return line.split("=")[0].strip().lower() in SET


def faults_of(dcf, eds, row, rate):
    """What is wrong with a DCF."""
    old, new = lines_of(eds), lines_of(dcf)
    rest = [it for it in new if not is_set(it)]
    appended = [it for it in rest[len([it for it in old if not is_set(it)]):]]
    if rest[: len(rest) - len(appended)] != [it for it in old if not is_set(it)]:
        yield "lines of the EDS file are missing or moved"
    if any(it.lower() not in ("[fileinfo]", "[devicecomissioning]") for it in appended):
        yield "more is appended than sections that were absent"
    before, after = read(old), read(new)
    changed = {
        (section, key)
        for section, keys in after.items()
        for key, value in keys.items()
        if before.get(section, {}).get(key) != value
    }
    if any(key not in SET for _, key in changed):
        yield "another key is changed"
    told = after.get("devicecomissioning", {})
    if (told.get("nodeid"), told.get("nodename"), told.get("baudrate")) != (row["node"], row["name"], rate):
        yield "node, name or rate"
    if after.get("fileinfo", {}).get("lasteds") != row["eds"]:
        yield "the name of the EDS file"


def main(folders):
    wrong = 0
    for folder in folders:
        with open(f"{folder}/nodes.csv", newline="", encoding="utf-8-sig") as it:
            rows = {row["node"]: row for row in csv.DictReader(it) if row["row"] == "device"}
        rate = lines_of(f"{folder}/plan.txt")[0].split()[-1]
        for dcf in sorted(glob.glob(f"{folder}/node-*.dcf")):
            row = rows[str(int(os.path.basename(dcf)[5:8]))]
            faults = list(faults_of(dcf, f"{folder}/{row['eds']}", row, rate))
            wrong += len(faults)
            print(f"{os.path.relpath(dcf, HERE)}: {', '.join(faults) or 'ok'}")
    return 1 if wrong else 0


if __name__ == "__main__":
    sys.exit(main(sys.argv[1:] or sorted(glob.glob(f"{HERE}/examples/*/"))))
