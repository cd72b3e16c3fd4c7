#!/usr/bin/env python3
"""Tries the edits that the gate leaves out: crates/NAME/more-edits/*.edit, which the prover has to refuse as well.

The gate tries one telling edit for each public function; these are of private functions, or turn a meaning that another
edit turns already. Run it before a release, for some crates or for all:

    tools/more_edits.py [NAME ..]

    tools/more_edits.py --gate [NAME ..]    tries those of the gate, must-fail/*.edit, in the same way

It works on a clone of the last commit in a folder of its own, where more-edits/ stands in place of must-fail/, and ends
with the status of `rt must-fail`. An edit that is refused because a proof names what the edit took away, a goal, a field or a
name, *shows nothing* of the contract. Such edits are listed at the end, and the status is then 1: change a value in place of a path.
"""
import os
import re
import shutil
import subprocess
import sys
import tempfile

TOP = os.path.dirname(os.path.dirname(os.path.abspath(__file__)))


# What the prover says where a proof cites what an edit took away.
TAKEN_AWAY = re.compile(r"only because a proof file names|has no goal|has no field|has no `|is not in scope|was not admitted")
REFUSED = re.compile(r"must-fail (\S+): refused, as it must be")


def crates_with(top, folder, wanted):
    """The crates that have edits in a folder, of those that are wanted, or of all."""
    names = sorted(os.listdir(f"{top}/crates"))
    return [it for it in names if (it in wanted or not wanted) and os.path.isdir(f"{top}/crates/{it}/{folder}")]


def try_edits(top, names):
    """Tries the edits of some crates: the status, and those that show nothing."""
    running = subprocess.Popen(["rt", "must-fail", *names], cwd=top, stdout=subprocess.PIPE, stderr=subprocess.STDOUT, text=True)
    empty = []
    for line in running.stdout:
        print(line, end="", flush=True)
        told = REFUSED.search(line)
        if told and TAKEN_AWAY.search(line):
            empty.append(told.group(1))
    return running.wait(), empty


def main(words):
    is_gate = "--gate" in words
    wanted = [it for it in words if it != "--gate"]
    folder = "must-fail" if is_gate else "more-edits"
    with tempfile.TemporaryDirectory(prefix="more-edits-") as room:
        subprocess.run(["git", "clone", "--quiet", TOP, f"{room}/clone"], check=True)
        top = f"{room}/clone"
        names = crates_with(top, folder, wanted)
        for name in [] if is_gate else names:
            shutil.rmtree(f"{top}/crates/{name}/must-fail", ignore_errors=True)
            os.rename(f"{top}/crates/{name}/more-edits", f"{top}/crates/{name}/must-fail")
        if not names:
            print("no such edits")
            return 0
        status, empty = try_edits(top, names)
        for name in empty:
            print(f"shows nothing: {name}")
        return status or (1 if empty else 0)


if __name__ == "__main__":
    sys.exit(main(sys.argv[1:]))
