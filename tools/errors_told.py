#!/usr/bin/env python3
"""Plans examples whose tables of nodes say how rare disturbed transfers are, and looks at what each call makes of it.

    python3 tools/errors_told.py

The response of each PDO is computed here, with a stream of 166 bits above all (margins.py). No page, line, document and database may name an
identifier that is not on the bus, and each has to tell of disturbed transfers where it should. Refusals are checked, a run is judged and
watched, also with as many error frames in its log as the row allows, and with one more. Last a deadline is missed by errors alone, which has to be told as such.
"""
import csv
import json
import os
import re
import shutil
import subprocess
import sys
import tempfile

from files import bytes_of, network_in, status_of, write
from log_lines import ends_of, line_of, lines_of_document
from margins import response

HERE = os.path.dirname(os.path.dirname(os.path.realpath(__file__)))
PROGRAM = os.environ.get("CANPLAN", f"{HERE}/bin/canplan")
# The folder, the row, the rate, and how often a disturbed transfer goes before each PDO.
CASES = (
    ("crane", "errors,0,,,1000000,0", 500, 1),
    ("crane", "errors,0,,,60000000,0", 500, 1),
    ("conveyor", "errors,0,,,1000000,0", 250, 1),
    ("conveyor", "errors,0,,,1000000,1000000", 250, 2),
    ("drives", "errors,0,,,1000000,0", 1000, 1),
)
BASES = {"nmt": (0, 2), "sync": (0x80, 0), "emcy": (0x80, 8), "sdo_response": (0x580, 8), "sdo_request": (0x600, 8), "heartbeat": (0x700, 1)}
START = 1436509052000000
UNTIL = 2500000


def called(*words):
    done = subprocess.run([PROGRAM, *words], capture_output=True, text=True)
    return done.returncode, done.stdout, done.stderr


def copied(name, row, folder):
    """Copies an example, with a row more in its table of nodes."""
    shutil.copytree(f"{HERE}/examples/{name}", folder)
    nodes = bytes_of(f"{folder}/nodes.csv").decode()
    commas = nodes.splitlines()[0].count(",") - row.count(",")
    write(f"{folder}/nodes.csv", f"{nodes}{row}{',' * commas}\n".encode())
    return network_in(folder)


def fixed_streams(folder):
    """The streams of the table of nodes, disturbed transfers with an identifier below all."""
    with open(f"{folder}/nodes.csv", newline="") as file:
        for row in csv.DictReader(file):
            times = {"period": int(row["period"]) * 4, "jitter": int(row["jitter"]) * 4}
            if row["row"] == "errors":
                yield {"id": -1, "bits": 166, "bytes": 9, **times}
            elif row["row"] != "device" and times["period"]:
                base, size = BASES[row["row"]]
                yield {"id": base + int(row["node"]), "bytes": size, **times}


def faults_of_responses(folder, document):
    """Whether each PDO that no SYNC sends has the response that is computed here, within its deadline."""
    pdos = [it["stream"] for it in document["pdos"]]
    streams = [{"id": it["id"], "bytes": it["bytes"], "period": it["period"]["ticks"], "jitter": it["jitter"]["ticks"]} for it in pdos]
    if any(it["every"] for it in pdos):
        return
    streams += fixed_streams(folder)
    order = sorted(range(len(streams)), key=lambda k: streams[k]["id"])
    for number, it in enumerate(pdos):
        wanted = response(streams, order, order.index(number), document["rate"])
        if it["response"]["ticks"] != wanted or wanted > it["deadline"]["ticks"]:
            yield f"{it['id']:03X}h has the response {it['response']['ticks']} in place of {wanted}, its deadline is {it['deadline']['ticks']}"


def faults_of_costs(document, rate, often):
    """Whether each PDO is told with what disturbed transfers cost it."""
    ticks = often * 166 * 4000 // rate
    for it in document["pdos"]:
        cost = it.get("errors")
        if not cost or (cost["transfers"], cost["time"]["ticks"]) != (often, ticks):
            yield f"the errors of {it['stream']['id']:03X}h are {cost}"


def faults_of_plan(folder, network, rate, often):
    status, lines, words = called("plan", "--explain", *network, f"{folder}/out")
    if status or f"rate {rate}\n" not in lines:
        yield f"plan ends with {status} and {lines[:20]!r} {words!r}"
    if "no error is counted" in words:
        yield "plan warns that no error is counted"
    status, text, _ = called("plan", "--json", *network, f"{folder}/out")
    document = json.loads(text)
    if status or document["rate"] != rate or any(it["number"] == 116 for it in document["warnings"]):
        yield f"the document has the rate {document['rate']} and the warnings {document['warnings']}"
    yield from faults_of_responses(folder, document)
    if not any(it["stream"]["every"] for it in document["pdos"]):
        yield from faults_of_costs(document, rate, often)
    status, lines, words = called("check", "--strict", *network, f"{folder}/out/refusals.csv")
    if status or "fails" in lines:
        yield f"check ends with {status} and {lines!r} {words!r}"
    status, lines, words = called("room", *network)
    if status or f"rate {rate}\n" not in lines:
        yield f"room ends with {status} and {words!r}"


def faults_of_page(page, often, has_sync):
    """What is wrong on the page of a report."""
    named = len(re.findall(rf"<li>disturbed transfers ×{often} <b>", page))
    pdos = len(re.findall(r'<tbody[^>]* id="pdo-', page))
    if named != pdos and not has_sync:
        yield f"{named} of {pdos} responses have {often} disturbed transfers"
    for part in ("Disturbed transfers, up to 166 bits each,", "disturbed transfers are as rare as the table of nodes says"):
        if part not in page:
            yield f"the page lacks {part!r}"
    for part in (">001h", "<td>frame of", "no error is counted", "no frame is disturbed"):
        if part in page:
            yield f"the page has {part!r}"


def faults_of_run(folder, network, row, often, has_sync):
    """A run, its judgement, its page, and its log without and with error frames."""
    trace, log, page = f"{folder}/out/trace.csv", f"{folder}/out/run.log", f"{folder}/out/report.html"
    status, said, words = called("run", "--seed", "7", "--until", str(UNTIL), *network, trace)
    if status or not said.endswith("on time\n"):
        yield f"run ends with {status}, {said!r} and {words!r}"
    status, judged, words = called("judge", *network, trace)
    if status or judged != said:
        yield f"judge ends with {status}, {judged!r} and {words!r}"
    lines = [line_of(START + int(end), number, body) for number, body, end in ends_of(trace)]
    has_nmt = any(" 000#" in line for line in lines)
    if has_nmt != ("nmt," in bytes_of(f"{folder}/nodes.csv").decode()):
        yield "the run sends other frames of NMT than the table has"
    write(log, "".join(f"{line}\n" for line in lines).encode())
    status, said, words = called("watch", "--error", "1", "--drift", "0", *network, log)
    if status or "keeps to the tables" not in said or has_nmt != ("000h frames" in said) or re.search(r"^001h|never seen", said, re.M):
        yield f"watch ends with {status}, {said!r} and {words!r}"
    status, _, words = called("report", "--trace", trace, "--log", log, *network, page)
    text = bytes_of(page).decode()
    if status or has_nmt != ("<b>000h</b> NMT" in text) or has_nmt != ("<td>NMT</td>" in text) or "keeps to the tables" not in text:
        yield f"report ends with {status} and {words!r}"
    yield from faults_of_page(text, often, has_sync)
    yield from faults_of_error_frames(network, row, lines, [int(end) for _, _, end in ends_of(trace)], log)


def faults_of_error_frames(network, row, lines, ends, log):
    """The log with as many error frames as the row allows at once, with one more, and with a frame of 001h."""
    period, jitter = map(int, row.split(",")[4:6])
    most = jitter // period + 1
    # They come where the bus is idle.
    at = next(k for k in range(50, len(ends)) if ends[k] - ends[k - 1] > 2000)
    begin = START + ends[at - 1] + 300
    errors = [line_of(begin + 200 * k, 0x20000080, "00" * 8) for k in range(most + 1)]
    soon = f"line {at + most + 1}: an error frame comes {200 * most} us after that of line {at + 1}; the least is "
    for put, number, words in (
        (errors[:most], 0, f"errors frames {most} "), (errors, 3, soon), (errors, 3, "; breaks: disturbed transfers are as rare as the row errors says\nbreaches 1\n"),
        ([line_of(begin, 1, "0100")], 3, f"line {at + 1}: 001h is of no sender in the tables; breaks: nothing else sends\nbreaches 1\n"),
    ):
        write(log, "".join(f"{line}\n" for line in [*lines[:at], *put, *lines[at:]]).encode())
        status, said, told = called("watch", "--error", "1", "--drift", "0", *network, log)
        if status != number or words not in said:
            yield f"watch of {len(put)} frames more ends with {status}, {said[-300:]!r} and {told!r}"
        status, said, told = called("watch", "--json", "--error", "1", "--drift", "0", *network, log)
        lines_said = lines_of_document(json.loads(said))
        if status != number or not any(words.split("\n")[0] in line for line in lines_said):
            yield f"the document of {len(put)} frames more ends with {status}, {lines_said[-3:]} and {told!r}"


def faults_of_exports(folder, network):
    status, _, words = called("export", "dbc", *network, f"{folder}/out/plan.dbc")
    messages = re.findall(r"^BO_ (\d+) (\w+): (\d+) ", bytes_of(f"{folder}/out/plan.dbc").decode("latin-1"), re.M)
    nmt = [it for it in messages if "NMT" in it]
    if status or nmt not in ([], [("0", "NMT", "2")]) or any(it[0] == "1" or it[2] == "9" for it in messages):
        yield f"export ends with {status}, {messages[-5:]} and {words!r}"
    status, _, words = called("export", "cdcf", *network, f"{folder}/out")
    if status:
        yield f"export cdcf ends with {status} and {words!r}"


def faults_of_case(folder, name, row, rate, often):
    network = copied(name, row, folder)
    os.makedirs(f"{folder}/out")
    yield from faults_of_plan(folder, network, rate, often)
    yield from faults_of_run(folder, network, row, often, name == "drives")
    yield from faults_of_exports(folder, network)


def faults_of_miss(folder):
    """The valve with NMT. At 500 kbit/s its PDO takes 270 us, a heartbeat from below 130, NMT 150, EMCY 270 and an error 332: 1152 in all."""
    network = ["--rates", "250,500", *copied("valve", "errors,0,,,1000000,0", folder)]
    nodes = bytes_of(f"{folder}/nodes.csv").decode()
    write(f"{folder}/nodes.csv", nodes.replace("emcy,5", "nmt,0,,,1000000,0\nemcy,5").encode())
    write(f"{folder}/pdos.csv", bytes_of(f"{folder}/pdos.csv").replace(b"670", b"1010"))
    os.makedirs(f"{folder}/out")
    told = "miss 500 deadlines 1140 tightest 5.1 without NMT without EMCY 5 without errors\n"
    status, said, words = called("room", *network)
    if status != 4 or not said.endswith(told):
        yield f"room ends with {status}, {said!r} and {words!r}"
    status, text, _ = called("room", "--json", *network)
    rows = json.loads(text)["misses"][-1]["without"]
    if status != 4 or rows != [{"row": "nmt", "node": 0}, {"row": "emcy", "node": 5}, {"row": "errors", "node": 0}]:
        yield f"room --json ends with {status} and {rows}"
    status, _, words = called("plan", "--explain", *network, f"{folder}/out")
    if status != 4 or "a plan passes without errors alone\n" not in words or "a plan passes without NMT alone\n" not in words:
        yield f"plan ends with {status} and {words!r}"
    status, _, _ = called("report", *network, f"{folder}/out/report.html")
    page = bytes_of(f"{folder}/out/report.html").decode()
    if status != 4 or "<li>at 500 kbit/s: no disturbed transfers</li>" not in page or "<li>at 500 kbit/s: no NMT</li>" not in page:
        yield f"report ends with {status}, and does not tell what could be left out"


def main():
    faults = []
    with tempfile.TemporaryDirectory() as folder:
        for number, (name, *case) in enumerate(CASES):
            faults += [f"{name}, {case[0]}: {it}" for it in faults_of_case(f"{folder}/{number}", name, *case)]
        faults += faults_of_miss(f"{folder}/miss")
    return status_of(faults)


if __name__ == "__main__":
    sys.exit(main())
