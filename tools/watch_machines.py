#!/usr/bin/env python3
"""Watches a bus at a pseudo terminal: the adapter and the senders are those of tools/machine.

    python3 tools/watch_machines.py [NAME..]

Of each case it is seen what is said, the status, and which commands the adapter is given: no frame is ever sent. A breach has to be told
before the end, and once more in the answer. A case whose name holds one of the words given is run, or each.
"""
import json
import subprocess
import sys
import tempfile
import time

from boot_machines import HEARD, HERE, PROGRAM, RIG, document_of
from files import network_in

# A bus that is watched: the words of the rig at the valve's network, those of the program, what it says (the verdict, or a refusal), the status, and the
# commands that the adapter is given.
PLANNED = "--every 181:0.1:8 705:0.3:1"

# A machine that does much else reads frames so late.
LATE = ["--error", "500000"]

CASES = {
    "as planned": (PLANNED, [*LATE, "--for", "2"], "keeps to the tables\n", 0, HEARD),
    "as planned, as a document": (PLANNED, [*LATE, "--for", "2", "--json"], "keeps to the tables\n", 0, HEARD),
    "lines with CR LF and stamps, in parts": (f"{PLANNED} --line-feeds --long-stamps --lower --chunk 7", [*LATE, "--for", "2"], "keeps to the tables\n", 0, HEARD),
    "garbage among frames": (f"{PLANNED} --garbage 0.5", [*LATE, "--for", "2"], "keeps to the tables\n", 0, HEARD),
    "too often": ("--every 181:0.003:8", ["--for", "4"], "breaches ", 3, HEARD),
    "too often, as a document": ("--every 181:0.003:8", ["--for", "4", "--json"], "breaches ", 3, HEARD),
    "of no sender": (f"{PLANNED} 1C3:0.7:4", ["--for", "4"], "breaches ", 3, HEARD),
    "as often as the clock may be wrong": ("--every 181:0.02:8", ["--for", "2", "--error", "1000000"], "keeps to the tables\n", 0, HEARD),
    "the adapter cannot listen only": (f"{PLANNED} --refuse L", [*LATE, "--for", "2"], "keeps to the tables\n", 0, ["C", "S6", "L", "O", "C"]),
    "the adapter answers nothing": (f"{PLANNED} --answers none", [*LATE, "--for", "2"], "keeps to the tables\n", 0, HEARD),
    "the rate is refused": (f"{PLANNED} --refuse S", ["--for", "2"], "refused 104 0", 3, ["C", "S6"]),
    "nobody is heard": ("", ["--for", "2"], "refused 94 0", 3, HEARD),
    "lines that are no frames": (f"{PLANNED} --garbled", ["--for", "2"], "refused 103 ", 3, HEARD),
    "until the port ends": (f"{PLANNED} --until 9", LATE, "keeps to the tables\n", 0, HEARD[:3]),
    "the port ends early": (f"{PLANNED} --until 9", [*LATE, "--for", "60"], "keeps to the tables\n", 5, HEARD[:3]),
    "the port ends early, as a document": (f"{PLANNED} --until 9", ["--for", "60", "--json"], "file ", 5, HEARD[:3]),
}


def breaches_of(text):
    """The lines of breaches in a text."""
    return [line for line in text.splitlines() if "; breaks: " in line]


def soon_told(call):
    """Runs a call: how it ended, and how long before its end the first breach was told."""
    it = subprocess.Popen(call, stdout=subprocess.PIPE, stderr=subprocess.PIPE, text=True)
    words, first = [], None
    for line in it.stderr:
        words.append(line)
        first = first or ("; breaks: " in line and time.monotonic()) or None
    text = it.stdout.read()
    status = it.wait(timeout=120)
    return subprocess.CompletedProcess(call, status, text, "".join(words)), first and time.monotonic() - first


def watch_faults(it, options, said):
    """Whether a bus that is watched is said to be another one."""
    if said.startswith("refused") or said.startswith("file"):
        told = document_of(it.stdout)["error"]["line"] if "--json" in options else it.stderr
        return [] if f"canplan: {said}" in told else [f"says {it.stdout!r}"]
    if "--json" in options:
        value = document_of(it.stdout)
        faults = [] if (value["breaches"]["count"] == 0) == said.startswith("keeps") else [f"counts {value['breaches']['count']}"]
        wrong = int(options[1]) if options[0] == "--error" else 2000
        faults += [] if value["clock"]["error"]["us"] == wrong else [f"the clock is {value['clock']}"]
        return faults + ([] if len(value["breaches"]["told"]) == len(breaches_of(it.stderr)) else ["other breaches are told as they come"])
    faults = [] if it.stdout.splitlines(True)[-1:] and it.stdout.splitlines(True)[-1].startswith(said) else [f"says {it.stdout!r}"]
    return faults + ([] if breaches_of(it.stdout) == breaches_of(it.stderr) else ["other breaches are told as they come"])


def tried(name, folder):
    """What is wrong with a case in which a bus is watched."""
    words, options, said, status, given = CASES[name]
    report, port = f"{folder}/report.json", f"{folder}/port"
    rig = subprocess.Popen([sys.executable, RIG, f"{HERE}/examples/valve/nodes.csv", port, "--log", f"{folder}/log", "--report", report, *words.split()],
                           stdout=subprocess.PIPE, text=True)
    rig.stdout.readline()
    it, before_end = soon_told([PROGRAM, "watch", "--port", port, *options, *network_in(f"{HERE}/examples/valve")])
    if given == ["C", "S6"]:
        rig.terminate()
    rig.wait(timeout=60)
    with open(report) as file:
        seen = json.load(file)
    faults = watch_faults(it, options, said)
    if it.returncode != status:
        faults.append(f"status {it.returncode}")
    if [command for _, command, _ in seen["given"]] != given or seen["frames_from_manager"] or seen["refused_lines"] > 2:
        faults.append(f"is given {seen['given']}, {seen['frames_from_manager']} frames")
    if said.startswith("breaches") and (before_end is None or before_end < 1):
        faults.append(f"the first breach is told {before_end} s before the end")
    return faults + ([f"standard error: {it.stderr}"] if faults else [])


def main(words):
    passed, failed = 0, 0
    for name in CASES:
        if words and not any(word in name for word in words):
            continue
        with tempfile.TemporaryDirectory() as folder:
            faults = tried(name, folder)
        print(f"{'FAILED' if faults else 'ok'}: {name}", flush=True)
        for fault in faults:
            print(f"  {fault}")
        passed, failed = passed + (not faults), failed + bool(faults)
    print(f"{passed} passed, {failed} failed")
    return 1 if failed else 0


if __name__ == "__main__":
    sys.exit(main(sys.argv[1:]))
