#!/usr/bin/env python3
"""Reads what the program answers with --json by Python's json, and compares it with docs/schema.json and with the lines.

    python3 tools/json_answers.py

Each example is planned, checked, booted, judged, watched and asked for its room, and tables that are refused are tried: each answer is one document that meets
the schema (Debian's python3-jsonschema), says what the lines say, and ends with their status.
"""
import csv
import glob
import json
import os
import subprocess
import sys
import tempfile

import jsonschema

from files import bytes_of, write
from log_lines import ends_of, line_of, lines_of_document

HERE = os.path.dirname(os.path.dirname(os.path.realpath(__file__)))
PROGRAM = os.environ.get("CANPLAN", f"{HERE}/bin/canplan")
SCHEMA = json.loads(bytes_of(f"{HERE}/docs/schema.json"))


def run(*words):
    it = subprocess.run([PROGRAM, *words], capture_output=True, timeout=600)
    return it.returncode, it.stdout.decode(), it.stderr.decode("latin-1")


def answers(command, *words):
    """The lines, the fault's line and the document of a call, whose status has to be the same."""
    status, text, fault = run(command, *words)
    other, document, said = run(command, "--json", *words)
    assert status == other, f"{command}: {status} and {other}"
    assert not said and document.endswith("\n") and document.count("\n") == 1, f"{command}: {document} {said}"
    value = json.loads(document)
    jsonschema.validate(value, SCHEMA)
    return text.splitlines(), fault.splitlines(), value


def plan(tables, out):
    lines, _, value = answers("plan", *tables, out)
    rows = list(csv.DictReader(open(tables[1], newline="", encoding="utf-8-sig")))
    times = {(it["pdo"]["node"], it["pdo"]["tpdo"]): it["stream"] for it in value["pdos"]}
    wanted = []
    for row in rows if value["rate"] else []:
        it = times[int(row["node"]), int(row["tpdo"])]
        wanted.append(f"pdo {row['node']}.{row['tpdo']} id {it['id']:X}h response {it['response']['ticks']}")
        assert it["response"]["us"] == it["response"]["ticks"] / 4 and it["deadline"]["us"] == int(row["deadline"])
    assert lines[0] == (f"rate {value['rate']}" if value["rate"] else "no rate passes"), lines[0]
    assert [it for it in lines if it.startswith("pdo ")] == wanted, wanted
    assert [int(it.split()[1]) for it in lines if it.startswith("refused ")] == [it["rate"] for it in value["refused"]]
    for line, one in zip([it.split() for it in lines if it.startswith("refused ")], value["refused"]):
        assert "members" not in one["reason"] or line[2:] == ["members", str(len(one["reason"]["members"]))], line
        assert "sdo" not in one["reason"] or line[2:] == ["sdo", f"{one['reason']['sdo']:X}"], line


def example(folder):
    tables = [f"{folder}/nodes.csv", f"{folder}/pdos.csv"]
    with tempfile.TemporaryDirectory() as out:
        plan(tables, out)
        assert bytes_of(f"{out}/plan.txt") == bytes_of(f"{folder}/plan.txt")
    lines, _, value = answers("check", *tables, f"{folder}/refusals.csv")
    assert lines == [f"{it['rate']} {'holds' if it['holds'] else 'fails'}" for it in value["refusals"]], lines
    lines, _, value = answers("boot", "--seed", "1", *tables)
    assert lines == [f"node {it['node']} {it['state']}" for it in value["nodes"]] + ["started" if value["started"] else "not started"], lines
    lines, _, value = answers("judge", *tables, f"{folder}/run.csv")
    assert lines == [f"transfers {value['transfers']}", "on time"] and value["on_time"] and value["planned"], lines
    watch(tables, f"{folder}/run.csv")
    room(tables)
    as_is(tables)
    changes(folder, tables)


def changes(folder, tables):
    """What changes in the devices from the example's plan to the one that leaves the most room."""
    with tempfile.TemporaryDirectory() as out:
        run("plan", "--margin", *tables, out)
        lines, _, value = answers("diff", folder, out)
    heads = [f"node {it['node']}: " + (f"{len(it['values'])} values" if it["state"] == "changed" else it["state"]) for it in value["nodes"]]
    assert [it for it in lines if it.startswith("node ")] == heads, lines
    pdos = [f"pdo {node['node']}.{it['tpdo']} id {it['old']:03X}h -> {it['new']:03X}h" for node in value["nodes"] for it in node["identifiers"]]
    assert [it for it in lines if it.startswith("pdo ")] == pdos, lines
    assert value["same"] == all(it["state"] == "same" for it in value["nodes"]) and value["old_rate"] == value["new_rate"], value


def room(tables):
    lines, _, value = answers("room", *tables)
    if value["rate"] is None:
        assert lines[0] == "no rate passes" and value["room"] is None, lines
        assert [int(it.split()[1]) for it in lines[1:]] == [it["rate"] for it in value["misses"]], lines
        return
    found = value["room"]
    wanted = [f"pdo {it['pdo']['node']}.{it['pdo']['tpdo']} id {it['id']:X}h" for it in found["pdos"]]
    assert [" ".join(it.split()[:4]) for it in lines if it.startswith("pdo ")] == wanted, wanted
    assert f"periods {found['periods']}" in lines and f"clock {found['clock']}" in lines, lines
    first = found["pdos"][0]["pdo"]
    lines, _, value = answers("room", "--anew", f"{first['node']}.{first['tpdo']}", *tables)
    told = value["room"]["anew"]
    assert lines[1].startswith(f"pdo {first['node']}.{first['tpdo']} anew ") and told["pdo"] == first, lines
    assert lines[1].endswith(f" deadline {told['deadline']['now']['us']} {told['deadline']['limit']['us']} bytes {told['bytes']['now']} {told['bytes']['limit']}"), lines


def as_is(tables):
    """Whether the example passes with the identifiers of its EDS files, or which row cannot keep its own."""
    lines, fault, value = answers("plan", "--as-is", *tables)
    if fault:
        assert fault == [f"canplan: refused 140 {value['error']['record']}"] and value["error"]["table"] == "pdos", fault
        return
    assert lines[0] == (f"rate {value['rate']}" if value["rate"] else "no rate passes"), lines
    wanted = [f"pdo {it['pdo']['node']}.{it['pdo']['tpdo']} id {it['id']:X}h response {it['response']['ticks']}" for it in value["pdos"] if value["rate"]]
    assert [it for it in lines if it.startswith("pdo ")] == wanted, wanted
    refused = [f"refused {it['rate']} failing {len(it['failing'])}" for it in value["refused"]]
    assert [" ".join(it.split()[:4]) for it in lines if it.startswith("refused ")] == refused, refused


def watch(tables, trace):
    """A log of a run, one of it at a tenth of its time, and one with frames of no stream."""
    log = [(1000000 + int(end), number, body) for number, body, end in ends_of(trace)]
    pressed = [(1000000 + (at - 1000000) // 10, number, body) for at, number, body in log]
    strange = log[:1] + [(log[0][0], 0x7C1, "00"), (log[0][0], 0x20000080, "0000000000000000"), (log[0][0], 0x98FF1234, "R")] + log[1:]
    for entries in (log, pressed, strange):
        with tempfile.TemporaryDirectory() as out:
            write(f"{out}/log", "".join(line_of(*entry) + "\n" for entry in entries).encode())
            lines, _, value = answers("watch", *tables, f"{out}/log")
        assert lines_of_document(value) == lines, [pair for pair in zip(lines_of_document(value), lines) if pair[0] != pair[1]][:2]
        assert value["keeps"] or entries is not log, lines


def streams():
    lines, _, value = answers("test", "--rate", "125", f"{HERE}/examples/three-frames.csv")
    for line, it in zip(lines, value["streams"], strict=True):
        instance = "" if it["instance"] is None else f" {it['instance']}"
        assert line == f"{it['id']:X}h {it['verdict']}{instance} {it['response']['ticks']}", line


def faults():
    """Refused inputs: each with its number, record, table and column, and with the file and the line there."""
    valve = f"{HERE}/examples/valve"
    tables = [f"{valve}/nodes.csv", f"{valve}/pdos.csv"]
    with tempfile.TemporaryDirectory() as out:
        bad = f"{out}/bad.csv"
        write(bad, bytes_of(tables[1]).replace(b"5,1,10000,", b"5,1,10 ms,"))
        write(f"{out}/empty", b"")
        write(f"{out}/nodes.csv", b"row,node,name,eds,period,jitter\ndevice,5,Valve,bent.eds,0,0\n")
        write(f"{out}/bent.eds", b"[FileInfo]\nFileName=bent.eds\nno key\n")
        wanted = [
            (["plan", tables[0], bad, out], (41, 1, "pdos", "period", bad, 2)),
            (["plan", f"{out}/nodes.csv", tables[1], out], (43, 1, "nodes", None, f"{out}/bent.eds", 3)),
            (["boot", "--seed", "1", tables[1], tables[1]], (40, 0, "nodes", None, tables[1], 1)),
            (["check", *tables, tables[0]], (31, 0, "refusals", None, tables[0], 1)),
            (["judge", *tables, tables[0]], (69, 0, "trace", None, tables[0], 1)),
            (["test", "--rate", "125", tables[0]], (1, 0, "streams", None, tables[0], 1)),
            (["watch", *tables, tables[0]], (90, 1, "log", None, tables[0], 1)),
            (["watch", *tables, f"{out}/empty"], (94, 0, "log", None, f"{out}/empty", None)),
            (["watch", *tables, f"{out}/none.log"], (None,) * 6),
            (["plan", f"{out}/none.csv", tables[1], out], (None,) * 6),
            (["read", "--port", f"{out}/none", "--rate", "500", "5", "1017", "0"], (None,) * 6),
            (["read", "--port", f"{out}/none", "--rate", "500", "5", "10000", "0"], (None,) * 6),
            (["write", "--port", f"{out}/none", "--rate", "500", "--type", "UNSIGNED8", "5", "1017", "0", "256"], (None,) * 6),
        ]
        for words, places in wanted:
            _, said, value = answers(*words)
            error = value["error"]
            found = tuple(error[key] for key in ("number", "record", "table", "column", "file", "file_line"))
            assert error["line"] == said[0] and error["words"], f"{words[0]}: {error}"
            assert found == places, f"{words[0]}: {found}"
        lines, _, value = answers("watch", "--rates", "250", *tables, f"{out}/empty")
        assert lines == lines_of_document(value) == ["no rate passes"], lines


def main():
    wrong = 0
    tries = [("streams", streams), ("faults", faults)]
    tries += [(os.path.relpath(it, HERE), lambda it=it: example(it)) for it in sorted(glob.glob(f"{HERE}/examples/*/"))]
    for name, attempt in tries:
        try:
            attempt()
            print(f"{name}: ok")
        except (AssertionError, jsonschema.ValidationError, ValueError, KeyError) as fault:
            wrong += 1
            print(f"{name}: {fault!r}")
    return 1 if wrong else 0


if __name__ == "__main__":
    sys.exit(main())
