#!/usr/bin/env python3
"""Runs the program on each example and compares what it answers with the files stored there, byte for byte.

    python3 tools/run_examples.py

Each plan also has to stand in examples/README.md, each stored refusal has to hold, and one that is altered to fail, if there is one. Of a plan
that is refused it has to be said where its folder has the files of another. Each network is booted by two seeds. A stored trace
has to be on time. A run by a seed has to give the stored one, where there is one, and the judgement of it what the run said; its
report has to show each transfer, and one of a trace that is refused has to end as the judgement, with no page. In a page each link
has to lead to a part of it, and each consumer has to be one. A run so long that its trace is above 64 MiB is judged as it was run.
"""
import os
import re
import subprocess
import sys
import tempfile

from files import network_in

HERE = os.path.dirname(os.path.dirname(os.path.realpath(__file__)))
EXAMPLES = f"{HERE}/examples"
PROGRAM = os.environ.get("CANPLAN", f"{HERE}/bin/canplan")
UNPROVED = "canplan: unproved"


def bytes_of(file):
    with open(file, "rb") as it:
        return it.read()


def run(*words):
    it = subprocess.run([PROGRAM, *words], capture_output=True, cwd="/")
    return it.returncode, it.stdout


def fault_of(*words):
    """What the program says on standard error, as lines, but for what `tools/unproved` says of it."""
    lines = subprocess.run([PROGRAM, *words], capture_output=True, cwd="/").stderr.decode().splitlines()
    return [it for it in lines if it != UNPROVED]


def indented(text):
    """The text as it stands in a page."""
    return b"".join(b"    " + line + b"\n" for line in text.splitlines())


def dcf_files(folder):
    """The DCF files of a folder, by their names."""
    return {it: bytes_of(f"{folder}/{it}") for it in sorted(os.listdir(folder)) if it.endswith(".dcf")}


def altered(refusals):
    """The refusals, the last number of which is one more."""
    begin, _, last = refusals.rstrip(b"\n").rpartition(b",")
    return begin + b",%d\n" % (int(last) + 1)


def ends_in(trace):
    """How many transfers come to an end in a trace."""
    return sum(line.startswith(b"end,") for line in bytes_of(trace).splitlines())


def consumers_in(pdos):
    """How many consumers a table of PDOs has."""
    return sum(len(line.split(b",")[5].split()) for line in bytes_of(pdos).splitlines()[1:])


def faults_of_links(tables, page):
    """What is wrong with the links of a page."""
    text = bytes_of(page)
    if set(re.findall(rb'href="#([^"]*)"', text)) - set(re.findall(rb'id="([^"]*)"', text)):
        yield "the links of the report"
    if len(re.findall(rb'<a href="#node-\d+">RPDO ', text)) != consumers_in(tables[1]):
        yield "the consumers of the report"


def faults_of_report(tables, trace, out):
    """What is wrong with the report of a run, and with that of the run without its header."""
    page, headless = f"{out}/report.html", f"{out}/headless.csv"
    if run("report", *tables, page) != (0, b"") or b"id=\"lanes\"" in bytes_of(page):
        yield "the report"
    yield from faults_of_links(tables, page)
    os.remove(page)
    drawn = run("report", "--trace", trace, *tables, page)
    if drawn != (0, b"") or bytes_of(page).count(b'class="sends"') != ends_in(trace):
        yield "the report of the seeded run"
    os.remove(page)
    with open(headless, "wb") as it:
        it.write(bytes_of(trace).partition(b"\n")[2])
    if run("report", "--trace", headless, *tables, page) != run("judge", *tables, headless) or os.path.exists(page):
        yield "the report of a trace that is refused"


def faults_of_refused_plan(tables, out):
    """What is wrong with what is said of a plan that is refused, where its folder has the files of another."""
    wrong = ["plan", tables[1], tables[0], out]
    if fault_of(*wrong) != ["canplan: refused 40 0"]:
        yield "the line of a refused plan"
    said = fault_of("plan", "--explain", *wrong[1:])
    if said[0] != "canplan: refused 40 0" or said[-1] != f"the files in {out} are of an earlier run":
        yield "what is said of the files of an earlier plan"
    with tempfile.TemporaryDirectory() as empty:
        if any("earlier run" in line for line in fault_of("plan", "--explain", *wrong[1:3], empty)):
            yield "what is said of an empty folder"


def faults_of_traces(tables, folder, out):
    """What is wrong with the stored trace, with a run by a seed, and with their judgement."""
    stored, seeded = f"{folder}/run.csv", f"{out}/run.csv"
    if os.path.isfile(f"{folder}/trace.csv"):
        wanted = b"transfers %d\non time\n" % ends_in(f"{folder}/trace.csv")
        if run("judge", *tables, f"{folder}/trace.csv") != (0, wanted):
            yield "the judgement of the stored trace"
    status, said = run("run", "--seed", "42", "--until", "20000", *tables, seeded)
    if status != 0 or os.path.isfile(stored) and bytes_of(seeded) != bytes_of(stored):
        yield "the seeded run"
    if run("judge", *tables, seeded) != (0, said):
        yield "the judgement of the seeded run"
    yield from faults_of_report(tables, seeded, out)


def faults_of_long_run():
    """What is wrong with a run whose trace is above 64 MiB, and with the judgement of it."""
    tables = [f"{EXAMPLES}/conveyor/nodes.csv", f"{EXAMPLES}/conveyor/pdos.csv"]
    with tempfile.TemporaryDirectory() as out:
        trace = f"{out}/run.csv"
        said = run("run", "--seed", "1", "--until", "1000000000", *tables, trace)
        if os.path.getsize(trace) <= 64 << 20 or said != (0, b"transfers %d\non time\n" % ends_in(trace)):
            yield "the long run"
        if run("judge", *tables, trace) != said:
            yield "the judgement of the long run"


def faults_of(name):
    """What differs in an example network."""
    folder, page = f"{EXAMPLES}/{name}", bytes_of(f"{EXAMPLES}/README.md")
    tables = network_in(folder)
    plan, refusals = bytes_of(f"{folder}/plan.txt"), bytes_of(f"{folder}/refusals.csv")
    with tempfile.TemporaryDirectory() as out:
        if run("plan", *tables, out) != (0, plan):
            yield "what plan prints"
        if bytes_of(f"{out}/plan.txt") != plan or bytes_of(f"{out}/refusals.csv") != refusals:
            yield "the files that plan writes"
        if not dcf_files(folder) or dcf_files(out) != dcf_files(folder):
            yield "the DCF files that plan writes"
        yield from faults_of_refused_plan(tables, out)
        with open(f"{out}/altered.csv", "wb") as it:
            it.write(altered(refusals))
        status, said = run("check", *tables, f"{out}/altered.csv")
        if b"\nrefused " in plan and (status != 3 or b" fails\n" not in said):
            yield "the check of altered refusals"
    status, said = run("check", *tables, f"{folder}/refusals.csv")
    if status != 0 or b" fails\n" in said:
        yield "the check of the stored refusals"
    for seed in "1", "2":
        if run("boot", "--seed", seed, *tables) != (0, bytes_of(f"{folder}/boot.txt")):
            yield f"the boot by seed {seed}"
    with tempfile.TemporaryDirectory() as out:
        yield from faults_of_traces(tables, folder, out)
    if indented(plan) not in page:
        yield "the plan in examples/README.md"


def main():
    wrong = 0
    for name in sorted(it for it in os.listdir(EXAMPLES) if os.path.isdir(f"{EXAMPLES}/{it}")):
        faults = list(faults_of(name))
        wrong += len(faults)
        print(f"{name}: {'differs: ' + ', '.join(faults) if faults else 'ok'}")
    faults = list(faults_of_long_run())
    wrong += len(faults)
    print(f"a long run: {'differs: ' + ', '.join(faults) if faults else 'ok'}")
    wanted = b"181h pass 8000\n182h pass 12000\n183h late 1 14000\n"
    if run("test", "--rate", "125", f"{EXAMPLES}/three-frames.csv") != (0, wanted):
        wrong += 1
        print("three-frames: differs")
    return 1 if wrong else 0


if __name__ == "__main__":
    sys.exit(main())
