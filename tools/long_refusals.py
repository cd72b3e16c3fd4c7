#!/usr/bin/env python3
"""Plans a network whose refusal file would be above 64 MiB with whole lists, and checks the file that is written.

    python3 tools/long_refusals.py

One of 270 PDOs nearly fills the bus at 1000 kbit/s. Each of the others comes a second time at the moment when the bus would be free again, so the
busy time goes on for seconds in steps of one transfer, and no rate passes. The file has to be of version 3 and to stay within 64 MiB, and
`check` has to say that each refusal holds.
"""
import argparse
import os
import subprocess
import sys
import tempfile

from files import bytes_of, status_of, write

HERE = os.path.dirname(os.path.dirname(os.path.realpath(__file__)))
sys.path.insert(0, f"{HERE}/bench")
import networks  # noqa: E402

PROGRAM = os.environ.get("CANPLAN", f"{HERE}/bin/canplan")
PDOS = 270
MOST = 64 << 20
OFTEN = 3  # this PDO is sent each 136 us, and takes 135 us of them
PERIOD = 20000000
HORIZON = 10000000


def transfer(place):
    """The longest transfer of a PDO at 1000 kbit/s, in microseconds: that is as many bits."""
    return 55 + 20 * networks.WORDS[place % networks.PDOS_OF_A_NODE]


def jitters():
    """The jitters with which each second instance comes when the bus would be free again, while that is within 10 s."""
    waiting = [place for place in range(PDOS) if place != OFTEN]
    work, free, found = sum(map(transfer, waiting)), 0, {}
    for place in waiting:
        while (end := work + -(-free // 136) * 135) != free:
            free = end
        found[place] = PERIOD - free + 1 if free < HORIZON else 0
        work += transfer(place)
    return found


def tables(folder):
    """Writes the tables and the EDS file of the network."""
    size = networks.PDOS_OF_A_NODE
    devices = (PDOS + size - 1) // size
    eds = networks.eds("drive", "unit.eds", False)
    nodes = "".join(f"device,{node},Unit {node},unit.eds,0,0\n" for node in range(1, devices + 1))
    rows = (f"{place // size + 1},{place % size + 1},{PERIOD},{jitter},5000,\n" for place, jitter in jitters().items())
    write(f"{folder}/unit.eds", "".join(f"{line}\n" for line in eds).encode())
    write(f"{folder}/nodes.csv", f"row,node,name,eds,period,jitter\n{nodes}".encode())
    write(f"{folder}/pdos.csv", f"node,tpdo,period,jitter,deadline,consumers\n1,4,136,0,136,\n{''.join(rows)}".encode())
    return f"{folder}/nodes.csv", f"{folder}/pdos.csv"


def run(*words):
    done = subprocess.run([PROGRAM, *words], capture_output=True, text=True)
    return done.returncode, done.stdout, done.stderr


def faults_of(folder):
    names = tables(folder)
    os.makedirs(f"{folder}/out", exist_ok=True)
    planned = run("plan", *names, f"{folder}/out")
    if planned[0] != 4:
        yield f"plan: {planned}"
        return
    text = bytes_of(f"{folder}/out/refusals.csv")
    if len(text) > 1000000 and planned[2] != f"canplan: refusals.csv will have {len(text) // 1000000} MB\n":
        yield f"the length is told: {planned[2]!r}"
    print(f"{len(text)} bytes")
    if len(text) > MOST or b"\n0,0,version,3\n" not in text[:40] or b",same,0\n" not in text:
        yield f"the file: {len(text)} bytes, {text[:60]}"
    checked = run("check", *names, f"{folder}/out/refusals.csv")
    lines = checked[1].splitlines()
    if checked[0] != 0 or not lines or any(not line.endswith(" holds") for line in lines):
        yield f"check: {checked}"


def main():
    argparse.ArgumentParser(description=__doc__, formatter_class=argparse.RawDescriptionHelpFormatter).parse_args()
    with tempfile.TemporaryDirectory() as folder:
        return status_of(list(faults_of(folder)))


if __name__ == "__main__":
    sys.exit(main())
