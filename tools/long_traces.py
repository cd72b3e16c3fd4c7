#!/usr/bin/env python3
"""Judges a trace above 64 MiB of PDOs by SYNC that are queued behind later SYNCs, as it is and with one line that breaks a rule.

    python3 tools/long_traces.py [MEGABYTES]

`run` plays the plan of eight such PDOs until the trace is long enough (100 MB without a number). `judge` has to accept it in 20 MiB of memory, and has to
name the rule and the record where one line is another. The header is record 0.
"""
import os
import subprocess
import sys
import tempfile

from files import bytes_of, status_of, write

HERE = os.path.dirname(os.path.dirname(os.path.realpath(__file__)))
PROGRAM = os.environ.get("CANPLAN", f"{HERE}/bin/canplan")
UNIT = bytes_of(f"{HERE}/examples/valve/unit.eds").decode().replace("\r\n", "\n")
NODES, SYNC = range(1, 9), 2000
LATENCY = 5000  # two SYNCs pass meanwhile
MOST_MEMORY = 20 << 10  # KiB
MOST_UNTIL = 1000000000


def write_network(folder):
    """Writes the tables and the EDS file of the devices."""
    write(f"{folder}/unit.eds", UNIT.replace("DefaultValue=255\n", "DefaultValue=1\n").encode())
    devices = "".join(f"device,{node},Valve {node},unit.eds,0,0\n" for node in NODES)
    write(f"{folder}/nodes.csv", f"row,node,name,eds,period,jitter\n{devices}sync,0,,,{SYNC},0\n".encode())
    rows = "".join(f"{node},1,0,{LATENCY},60000,\n" for node in NODES)
    write(f"{folder}/pdos.csv", f"node,tpdo,period,jitter,deadline,consumers\n{rows}".encode())
    return f"{folder}/nodes.csv", f"{folder}/pdos.csv"


def call(*words):
    """The status, the answer and the greatest memory, in KiB, of a call."""
    program = subprocess.Popen([PROGRAM, *words], stdout=subprocess.PIPE, stderr=subprocess.STDOUT, text=True)
    said = program.stdout.read()
    _, status, used = os.wait4(program.pid, 0)
    return os.waitstatus_to_exitcode(status), said, used.ru_maxrss


def broken(trace, other):
    """Writes the trace with another identifier in a line that starts a transfer, past its middle, and gives that line's number."""
    size, place, number, done = os.path.getsize(trace), 0, 0, None
    with open(trace, "rb") as old, open(other, "wb") as new:
        for line in old:
            number, place = number + 1, place + len(line)
            if done is None and place > size * 3 // 4 and line.startswith(b"start,"):
                fields = line.split(b",")
                fields[2], done = b"2047", number
                line = b",".join(fields)
            new.write(line)
    return done


def main(words):
    size, faults = int(words[0]) if words else 100, []
    with tempfile.TemporaryDirectory() as folder:
        tables, trace, other = write_network(folder), f"{folder}/trace.csv", f"{folder}/broken.csv"
        status, said, _ = call("run", "--seed", "1", "--until", "10000000", *tables, trace)
        if status:
            return status_of([f"run: status {status}, {said!r}"])
        until = min(MOST_UNTIL, 10000000 * (size << 20) // os.path.getsize(trace))
        call("run", "--seed", "1", "--until", str(until), *tables, trace)
        status, said, used = call("judge", *tables, trace)
        print(f"{os.path.getsize(trace) >> 20} MiB: {said.strip()}, {used >> 10} MiB of memory", flush=True)
        if status or not said.startswith("transfers ") or used > MOST_MEMORY:
            faults.append(f"a legal trace: status {status}, {said!r}, {used} KiB")
        line = broken(trace, other)
        status, said, used = call("judge", *tables, other)
        print(f"line {line} is another: {said.strip()}, {used >> 10} MiB of memory", flush=True)
        if status != 3 or said != f"canplan: refused 61 {line - 1}\n":
            faults.append(f"line {line} is another: status {status}, {said!r}, {used} KiB")
    return status_of(faults)


if __name__ == "__main__":
    sys.exit(main(sys.argv[1:]))
