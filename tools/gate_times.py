#!/usr/bin/env python3
"""Runs the gate from nothing and tells where its processor time goes: by crate, for library, tests and must-fail edits.

usage: tools/gate_times.py [LOG]    at the top of a clean clone, with nothing else running on the machine; what the
                                    gate says goes to LOG (gate.log where none is given)

What is proved of a crate of tests, whose name ends in _tests, counts as tests. Times are user and system time in
seconds, read of each checker while it runs; the last line is that of the whole run as the system counts it.
"""
import os
import resource
import subprocess
import sys
import time

TICKS = os.sysconf("SC_CLK_TCK")
KINDS = ("library", "tests", "edits")


def read(path):
    try:
        with open(path, "rb") as it:
            return it.read()
    except OSError:
        return b""


def checker(pid):
    """The crate and the kind of work of a checker, where the process is one."""
    words = read(f"/proc/{pid}/cmdline").decode(errors="replace").split("\0")
    if "--crate-name" not in words:
        return None
    crate = words[words.index("--crate-name") + 1]
    try:
        folder = os.readlink(f"/proc/{pid}/cwd")
    except OSError:
        return None
    if "/rt-edit" in folder:
        return crate, "edits"
    if not f"{folder}/".startswith(f"{os.getcwd()}/"):
        return None
    return crate, "tests" if crate.endswith("_tests") or "--test" in words else "library"


def gate():
    """A kit whose gate keeps what it passed has a flag for a run from nothing; of another kit each run is."""
    asked = subprocess.run(["rt", "--help"], stdout=subprocess.PIPE, stderr=subprocess.STDOUT, text=True, check=False)
    told = asked.stdout
    return ["rt", "ci", "--anew"] if "--anew" in told else ["sh", ".ci/run"]


def seconds(pid):
    fields = read(f"/proc/{pid}/stat").rpartition(b")")[2].split()
    return (int(fields[11]) + int(fields[12])) / TICKS if len(fields) > 12 else 0.0


def main():
    log = sys.argv[1] if len(sys.argv) > 1 else "gate.log"
    begun, found = time.monotonic(), {}
    with open(log, "wb") as out:
        running = subprocess.Popen(gate(), stdout=out, stderr=subprocess.STDOUT)
        while running.poll() is None:
            for pid in filter(str.isdigit, os.listdir("/proc")):
                what = checker(pid)
                if what:
                    key = (pid, *what)
                    found[key] = max(found.get(key, 0.0), seconds(pid))
            time.sleep(0.3)
    crates = {}
    for (_, crate, kind), used in found.items():
        crates.setdefault(crate, dict.fromkeys(KINDS, 0.0))[kind] += used
    print("| crate | library | tests | edits |\n|---|---:|---:|---:|")
    for crate, used in sorted(crates.items(), key=lambda it: -sum(it[1].values())):
        print(f"| {crate} | " + " | ".join(f"{used[kind]:.0f}" for kind in KINDS) + " |")
    sums = [sum(used[kind] for used in crates.values()) for kind in KINDS]
    print("| sum | " + " | ".join(f"{it:.0f}" for it in sums) + " |")
    used = resource.getrusage(resource.RUSAGE_CHILDREN)
    print(f"\n{(used.ru_utime + used.ru_stime) / 60:.1f} processor minutes in {(time.monotonic() - begun) / 60:.1f} minutes")
    return running.returncode


if __name__ == "__main__":
    sys.exit(main())
