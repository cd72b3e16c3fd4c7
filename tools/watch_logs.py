#!/usr/bin/env python3
"""Watches logs that are made of runs of the examples, and logs with a breach in them.

    /usr/bin/python3 tools/watch_logs.py [PROGRAM]

Each example that has a plan is run by several seeds. The ends of the transfers, by a clock that is shaken and drifts within what is said
on the command line, make a log as `candump -L` writes it: no breach may be found in it, nor in its middle third, nor where each tenth
line is lost, nor where a second channel stands between. The page of `report --log` has to have as many distances in the histogram of each
identifier as the lines have frames but one. Then one breach of each kind is put in: it has to be found at its line. Then frames that are
worth a word, also more of them than are told. Last a log that is refused has to be refused by the number and at the place that it should.
Of each of these logs the document of --json has to stand for the same lines, and to end with their status. It has to stand for the
table that --csv writes beside it, too; of a log that is refused there is none.

By more seeds the log is written in each other form (log_forms.py): nothing may be found in it, and what is said of the streams has to be the
same in each form that keeps the microseconds; then a breach of some kind is put in, which has to be found at its line.

Last each example gets a row `errors`, for one error in a second. In each form one error frame may not be a breach, and a second one right behind it has to be.
"""
import json
import os
import random
import re
import shutil
import subprocess
import sys
import tempfile

from files import bytes_of, write as write_bytes
from log_forms import FORMS, Frame
from log_lines import ends_of, line_of, lines_of_document, stamped, table_of_document

HERE = os.path.dirname(os.path.dirname(os.path.realpath(__file__)))
EXAMPLES = f"{HERE}/examples"
PROGRAM = sys.argv[1] if len(sys.argv) > 1 else f"{HERE}/bin/canplan"
NAMES = ("valve", "crane", "conveyor", "drives", "second-range")
SEEDS = range(1, 6)
MORE_SEEDS = range(6, 48)
RARE_SEEDS = range(48, 50)
RARE = "errors,0,,,1000000,0"
UNTIL = 1500000

# What the clock does, and what is said of it.
SHAKE, DRIFT = 50, 60
SAID = ("--error", "60", "--drift", "100")
START = 1436509052000000


def run(*words, text=None):
    it = subprocess.run([PROGRAM, *words], capture_output=True, input=text)
    return it.returncode, it.stdout.decode(), it.stderr.decode()


def log_of(ends, chance):
    """The entries of a log: microsecond by the clock, identifier, data."""
    drift = 1 + chance.uniform(-DRIFT, DRIFT) / 1000000
    return [(START + int(end * drift + chance.uniform(0, SHAKE)), number, body) for number, body, end in ends]


def lines_of(log):
    return [line_of(*entry) for entry in log]


def good_logs(log, chance):
    """Logs in which nothing may be found, by their names."""
    lines = lines_of(log)
    yield "whole", lines
    yield "middle", lines[len(lines) // 3:2 * len(lines) // 3]
    yield "lost", [line for line in lines if chance.random() > 0.1]
    mixed = []
    for at, number, body in log:
        mixed += [line_of(at, number, body), line_of(at, 0x7FF, "00", "can1")]
    yield "mixed", mixed
    yield "blank", [part for line in lines for part in (line, "")]
    yield "directed", [line + chance.choice(("", " R", " T")) for line in lines]


def bad_logs(log, chance):
    """Logs with a breach, by their names: the number of its line, and a word that is said of it."""
    lines = lines_of(log)
    n = chance.randrange(len(lines) // 4, len(lines) // 2)
    at, number, body = log[n]

    def put(line):
        return lines[:n + 1] + [line] + lines[n + 1:]

    yield "strange", put(line_of(at, 0x7C1, "00")), n + 2, "is of no sender"
    yield "29 bits", put(f"{stamped(at)} can0 18FF1234#00"), n + 2, "of 29 bits"
    yield "remote", put(f"{stamped(at)} can0 {number:03X}#R"), n + 2, "a remote frame"
    yield "error", put(f"{stamped(at)} can0 20000080#0000000000000000"), n + 2, "an error frame"
    longer = body + "00" if len(body) < 16 else body[:-2]
    yield "length", lines[:n] + [line_of(at, number, longer)] + lines[n + 1:], n + 1, "bytes, and"
    # A PDO that comes twice where no room is wanted on the bus: all that follows is later.
    pdos = [k for k in range(n, len(log)) if 0x180 < log[k][1] < 0x580]
    if pdos:
        k = pdos[0]
        gap = 700
        later = [(at + gap, number, body) for at, number, body in log[k + 1:]]
        twice = log[:k + 1] + [(log[k][0] + gap, log[k][1], log[k][2])] + later
        yield "twice", lines_of(twice), k + 2, "after that of line"
    # Stamps of a second are pressed into a tenth of it.
    pressed = [(START + (at - START) // 10, number, body) for at, number, body in log]
    yield "pressed", lines_of(pressed), None, "the transfers after line"
    # The clock is set back by a second, and nothing else is wrong.
    fallen = log[:n + 1] + [(at - 1000000, number, body) for at, number, body in log[n + 1:]]
    yield "fallen", lines_of(fallen), n + 2, "the log's clock falls by"


def told_logs(log, chance):
    """Logs with frames that are worth a word, and the words that have to be said of them; and one with more of each than are told."""
    lines = lines_of(log)
    n = chance.randrange(len(log) // 4, len(log) // 2)
    at = log[n][0]
    frames = (
        (0x000, "0105", "NMT start, node 5"), (0x000, "8200", "NMT reset communication, all nodes"), (0x000, "0705", "NMT an unknown command, node 5"),
        (0x705, "00", "node 5 boots up"), (0x085, "3081000000000000", "EMCY of node 5, code 8130h: a heartbeat or a life guarding stayed away"),
        (0x585, "8000180130000906", "SDO abort by the server at node 5, 1800h sub 1, 06090030h: the object does not take the value now"),
        (0x605, "8017100000000405", "SDO abort by the client at node 5, 1017h sub 0, 05040000h: no answer in time"),
    )
    for number, body, words in frames:
        yield lines[:n] + [line_of(at, number, body)] + lines[n:], f"line {n + 1}: {words}"
    many = [line_of(at, number, body) for number, body, _ in frames[2:] for _ in range(25)]
    for words in ("NMT commands", "boot-ups 25", "EMCYs", "SDO aborts 50"):
        yield lines[:n] + many + lines[n:], words
    heartbeats = [k for k in range(1, len(log)) if 0x700 < log[k][1] < 0x780]
    if heartbeats:
        _, number, body = log[heartbeats[0]]
        yield lines + [line_of(log[-1][0] + 200000000, number, body)], f"line {len(lines) + 1}: the heartbeat of node {number & 0x7F} comes after 20"


def refused_logs(log):
    """Logs that are refused: number and place."""
    lines = lines_of(log[:20])
    yield 90, 1, ["Time Stamp,ID,Extended"] + lines
    for number, line in ((90, lines[4] + " X"), (91, "x" + lines[4]), (91, lines[4].replace(".", ":", 1)), (92, lines[4].replace("can0 ", "can0 1", 1)),
                         (93, lines[4] + "0"), (93, lines[4] + "0011223344556677")):
        yield number, 5, lines[:4] + [line] + lines[5:]
    yield 94, 0, []
    yield 95, 5, lines[:4] + ["(" + "1" * 5000] + lines[5:]


def watched(tables, lines, words=SAID):
    return run("watch", *words, *tables, "-", text="".join(line + "\n" for line in lines).encode())


def taken(file):
    """The text of a file, which is removed. It is empty where there is no file."""
    if not os.path.exists(file):
        return ""
    text = bytes_of(file).decode()
    os.remove(file)
    return text


def document_faults(tables, lines, answer, folder):
    """What is wrong with the document of a log, and with the table beside it, beside the answer in lines."""
    status, out, err = answer
    table = f"{folder}/table.csv"
    other, document, said = watched(tables, lines, ("--json", "--csv", table, *SAID))
    found = taken(table)
    if other != status or said or document.count("\n") != 1:
        yield f"a document with status {other}, and not {status}: {said}"
        return
    value = json.loads(document)
    if "error" in value:
        error = value["error"]
        if out or error["table"] != "log" or f"canplan: refused {error['number']} {error['record']}" != err.splitlines()[0] != error["line"]:
            yield f"a document that says {error}"
    elif lines_of_document(value) != out.splitlines():
        yield f"a document that says {[pair for pair in zip(lines_of_document(value), out.splitlines()) if pair[0] != pair[1]][:2]}"
    if found != ("" if "error" in value else table_of_document(value)):
        yield f"a table that says {found!r}"


def page_faults(tables, lines, folder):
    """What is wrong with the section of a report on a log."""
    log, page = f"{folder}/log", f"{folder}/page.html"
    with open(log, "w") as file:
        file.write("".join(line + "\n" for line in lines))
    status, _, err = run("report", "--log", log, *SAID, *tables, page)
    if status != 0:
        yield f"status {status} {err}"
        return
    with open(page) as file:
        section = file.read().split('<section id="log">', 1)[1].split("</section>", 1)[0]
    frames = {}
    for line in lines:
        number = int(line.split()[2].split("#")[0], 16)
        frames[number] = frames.get(number, 0) + 1
    rows = re.findall(r'<tr><th scope="row">([0-9A-F]{3})h</th>(.*?)</tr>', section, re.S)
    for number, row in rows:
        counted = sum(int(count) for count in re.findall(r"<title>(\d+) from", row))
        seen = frames.get(int(number, 16), 0)
        if f'<td class="n">{seen}</td>' not in row or counted != max(seen - 1, 0):
            yield f"{number}: {seen} frames, {counted} distances"
    if not rows or "keeps to the tables" not in section:
        yield "no rows, or no judgement"


def planted(frames, chance):
    """The frames with a breach of some kind among them: the kind, the frames, its place among them, and a word that is said of it."""
    n = chance.randrange(len(frames) // 4, len(frames) // 2)
    at, number, body, _ = frames[n]
    longer = body + "00" if len(body) < 16 else body[:-2]
    pdos = [k for k in range(n, len(frames)) if 0x180 < frames[k].number < 0x580]
    yield "strange", frames[:n + 1] + [Frame(at, 0x7C1, "00")] + frames[n + 1:], n + 1, "is of no sender"
    yield "long", frames[:n + 1] + [Frame(at, 0x18FF1234, "00", "long")] + frames[n + 1:], n + 1, "of 29 bits"
    yield "remote", frames[:n + 1] + [Frame(at, number, "", "remote")] + frames[n + 1:], n + 1, "a remote frame"
    yield "error", frames[:n + 1] + [Frame(at, 0x80, "0000000000000000", "error")] + frames[n + 1:], n + 1, "an error frame"
    yield "length", frames[:n] + [Frame(at, number, longer)] + frames[n + 1:], n, "bytes, and"
    if pdos:
        k = pdos[0]
        later = [frame._replace(at=frame.at + 700) for frame in frames[k + 1:]]
        yield "twice", frames[:k + 1] + [frames[k]._replace(at=frames[k].at + 700)] + later, k + 1, "after that of line"


def said_of_streams(out):
    """What is said of the streams, and of what was noticed, but for the lines."""
    return [re.sub(r"line \d+", "line", line) for line in out.splitlines() if "heartbeat" not in line]


def faults_of_forms(name, seed, folder):
    chance = random.Random(f"forms {name} {seed}")
    tables = (f"{EXAMPLES}/{name}/nodes.csv", f"{EXAMPLES}/{name}/pdos.csv")
    trace = f"{folder}/trace.csv"
    run("run", "--seed", str(seed), "--until", str(UNTIL), *tables, trace)
    frames = [Frame(*entry) for entry in log_of(ends_of(trace), chance)]
    breaches = list(planted(frames, chance))
    before = None
    for form, (write, rounded, words, never) in FORMS.items():
        said = (*words, "--error", str(60 + rounded), "--drift", "100")
        status, out, err = run("watch", *said, *tables, "-", text=write(frames)[0].encode())
        if status != 0 or not out.endswith("keeps to the tables\n"):
            yield f"{name} {seed} {form}: status {status} {err} {[it for it in out.splitlines() if 'breaks' in it][:2]}"
        if rounded == 0:
            before = before or said_of_streams(out)
            if said_of_streams(out) != before:
                yield f"{name} {seed} {form}: not as in columns"
        kind, bad, place, word = chance.choice([it for it in breaches if it[0] not in never])
        text, head = write(bad)
        status, out, err = run("watch", *said, *tables, "-", text=text.encode())
        if status != 3 or not [it for it in out.splitlines() if word in it and it.startswith(f"line {head + place + 1}:")]:
            yield f"{name} {seed} {form} {kind} at {head + place + 1}: status {status} {err} {[it for it in out.splitlines() if 'breaks' in it][:2]}"


def rare_tables(name, folder):
    """The tables of an example with a row `errors`, for one error in a second."""
    rare = f"{folder}/rare"
    shutil.rmtree(rare, ignore_errors=True)
    shutil.copytree(f"{EXAMPLES}/{name}", rare)
    nodes = bytes_of(f"{rare}/nodes.csv").decode()
    commas = nodes.splitlines()[0].count(",") - RARE.count(",")
    write_bytes(f"{rare}/nodes.csv", f"{nodes}{RARE}{',' * commas}\n".encode())
    return f"{rare}/nodes.csv", f"{rare}/pdos.csv"


def faults_of_errors(name, seed, folder):
    """Error frames against a row `errors`, in each form: one of a second is none too many, and the second of a moment is."""
    chance = random.Random(f"errors {name} {seed}")
    tables = rare_tables(name, folder)
    trace = f"{folder}/trace.csv"
    run("run", "--seed", str(seed), "--until", str(UNTIL), *tables, trace)
    frames = [Frame(*entry) for entry in log_of(ends_of(trace), chance)]
    # They come where the bus is idle.
    idle = [k for k in range(1, len(frames)) if frames[k].at - frames[k - 1].at > 3000]
    n = chance.choice(idle)
    errors = [Frame(frames[n - 1].at + 700 + 300 * k, 0x80, "0000000000000000", "error") for k in range(2)]
    for form, (write, rounded, words, never) in FORMS.items():
        if "error" in never:
            continue
        said = (*words, "--error", str(60 + rounded), "--drift", "100")
        for count, number, word in ((1, 0, "errors frames 1 table 1000000"), (2, 3, "; breaks: disturbed transfers are as rare as the row errors says")):
            text, head = write(frames[:n] + errors[:count] + frames[n:])
            status, out, err = run("watch", *said, *tables, "-", text=text.encode())
            found = [it for it in out.splitlines() if word in it]
            if status != number or not found or count == 2 and not found[0].startswith(f"line {head + n + 2}: an error frame comes "):
                yield f"{name} {seed} {form} {count} error frames at {head + n + 1}: status {status} {err} {out[-300:]!r}"


def faults_of(name, seed, folder):
    chance = random.Random(f"{name} {seed}")
    tables = (f"{EXAMPLES}/{name}/nodes.csv", f"{EXAMPLES}/{name}/pdos.csv")
    trace = f"{folder}/trace.csv"
    run("run", "--seed", str(seed), "--until", str(UNTIL), *tables, trace)
    log = log_of(ends_of(trace), chance)
    for kind, lines in good_logs(log, chance):
        status, out, err = answer = watched(tables, lines)
        for fault in document_faults(tables, lines, answer, folder):
            yield f"{name} {seed} {kind}: {fault}"
        if status != 0 or not out.endswith("keeps to the tables\n"):
            yield f"{name} {seed} {kind}: status {status} {err} {[it for it in out.splitlines() if 'breaks' in it][:2]}"
    for fault in page_faults(tables, lines_of(log), folder):
        yield f"{name} {seed} page: {fault}"
    for kind, lines, place, word in bad_logs(log, chance):
        status, out, err = answer = watched(tables, lines)
        for fault in document_faults(tables, lines, answer, folder):
            yield f"{name} {seed} {kind}: {fault}"
        found = [it for it in out.splitlines() if word in it and (place is None or it.startswith(f"line {place}:"))]
        if status != 3 or not found:
            yield f"{name} {seed} {kind} at {place}: status {status} {err} {[it for it in out.splitlines() if 'breaks' in it][:2]}"
    for lines, words in told_logs(log, chance):
        status, out, err = answer = watched(tables, lines)
        for fault in document_faults(tables, lines, answer, folder):
            yield f"{name} {seed} told: {fault}"
        if status not in (0, 3) or not [it for it in out.splitlines() if it.startswith(words)]:
            yield f"{name} {seed} does not tell {words}: status {status} {err}"
    for number, place, lines in refused_logs(log):
        status, out, err = answer = watched(tables, lines)
        for fault in document_faults(tables, lines, answer, folder):
            yield f"{name} {seed} refused {number}: {fault}"
        if status != 3 or err.splitlines()[:1] != [f"canplan: refused {number} {place}"]:
            yield f"{name} {seed} refused {number} {place}: status {status} {err}"


def main():
    faults = []
    with tempfile.TemporaryDirectory() as folder:
        for name in NAMES:
            for seed in SEEDS:
                faults += faults_of(name, seed, folder)
            for seed in MORE_SEEDS:
                faults += faults_of_forms(name, seed, folder)
            for seed in RARE_SEEDS:
                faults += faults_of_errors(name, seed, folder)
    for fault in faults:
        print(fault)
    print(f"{len(NAMES) * (len(SEEDS) + len(MORE_SEEDS) + len(RARE_SEEDS))} runs, {len(faults)} faults")
    return 1 if faults else 0


if __name__ == "__main__":
    sys.exit(main())
