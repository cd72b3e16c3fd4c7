#!/usr/bin/env python3
"""Tries words of the command line that no test of the gate reaches: rates that are listed, strict calls, formats, words that exclude one another,
the table of `watch --csv`, and the numbers that `explain` knows, which it tells where it is asked for another.

    python3 tools/words_of_calls.py
"""
import json
import os
import pty
import re
import subprocess
import sys
import tempfile

from files import bytes_of, status_of, write
from log_lines import table_of_document

HERE = os.path.dirname(os.path.dirname(os.path.realpath(__file__)))
PROGRAM = os.environ.get("CANPLAN", f"{HERE}/bin/canplan")
CRANE, SDO, RANGES = ((f"{HERE}/examples/{it}/nodes.csv", f"{HERE}/examples/{it}/pdos.csv") for it in ("crane", "sdo-refusal", "second-range"))
LOG = f"{HERE}/examples/crane/crane.log"
VALVE, UNIT = f"{HERE}/examples/valve/pdos.csv", bytes_of(f"{HERE}/examples/valve/unit.eds").decode()
NO_REFUSAL = b"rate,pdo,what,value\n0,0,version,1\n"

# The words, the status, and what stands in the answer and on standard error. OUT is a folder of its own.
CALLS = (
    (("plan", "--explain", *SDO, "OUT"), 0, "refused 250 sdo 585", "at 250 kbit/s the SDO frame 585h needs 1080 us, its deadline is 1000 us, with all PDOs below it\n"),
    (("plan", "--explain", *RANGES, "OUT"), 0, "refused 125 sdo 582", ", below 1 PDO that cannot go below it\n"),
    (("plan", *CRANE, "OUT"), 0, "refused 250", ""),
    (("plan", "--strict", *CRANE, "OUT"), 3, "refused 250", ""),
    (("plan", "--explain", *CRANE, "OUT"), 0, "refused 250", "at 250 kbit/s "),
    (("check", "--explain", *CRANE, "OUT/none.csv"), 0, "", "no refusal in"),
    (("explain", "80"), 0, "rule 80: ", ""),
    (("explain", "86"), 0, "warning 86: ", ""),
    (("check", "--strict", *CRANE, "OUT/refusals.csv"), 0, "250 holds", ""),
    (("check", "--strict", *CRANE, "OUT/none.csv"), 4, "", ""),
    (("check", "--strict", "--rates", "500,1000", *CRANE, "OUT/none.csv"), 0, "", ""),
    (("check", *CRANE, "OUT/none.csv"), 0, "", ""),
    (("plan", "--rates", "500,1000", *CRANE, "OUT"), 0, "rate 500\n", ""),
    (("plan", "--rates", "1000", *CRANE, "OUT"), 3, "", "canplan: refused 52 0\n"),
    (("plan", "--explain", "--rates", "10", *CRANE, "OUT"), 3, "", "--rates lists 10 kbit/s\n"),
    (("plan", "--rates", "251", *CRANE, "OUT"), 2, "", "[possible values: 10, 20, 50, 125, 250, 500, 800, 1000]"),
    (("plan", "--rates", "", *CRANE, "OUT"), 2, "", "possible values"),
    (("export", "cdcf", "--margin", "--rates", "500", *CRANE, "OUT"), 0, "", ""),
    (("export", "xml", *CRANE, "OUT/plan.xml"), 2, "", "[possible values: dbc, cdcf]"),
    (("test", "--rate", "125", f"{HERE}/examples/three-frames.csv"), 0, "late", ""),
    (("test", "--strict", "--rate", "125", f"{HERE}/examples/three-frames.csv"), 3, "late", ""),
    (("test", "--strict", "--rate", "500", f"{HERE}/examples/three-frames.csv"), 0, "pass", ""),
    (("boot", "--seed", "1", "--port", "-", *CRANE), 2, "", "cannot be used with"),
    (("boot", "--seed", "1", "--no-identity", *CRANE), 2, "", "cannot be used with"),
    (("boot", "--seed", "1", "--boot-limit", "8", *CRANE), 2, "", "cannot be used with"),
    (("boot", "--port", "-", "--boot-limit", "0", *CRANE), 2, "", "--boot-limit"),
    (("boot", "--port", "-", "--boot-limit", "601", *CRANE), 2, "", "--boot-limit"),
    (("boot", *CRANE), 2, "", "required"),
    (("explain", "90"), 0, "", ""),
    (("explain", "94"), 0, "no frame of the channel", ""),
    (("explain", "95"), 0, "4096 bytes", ""),
    (("explain", "96"), 0, "distance", ""),
    (("explain", "97"), 2, "", "60 to 96"),
    (("explain", "100"), 0, "--take-over", ""),
    (("watch", "--json", *CRANE, "OUT/none.csv"), 3, '"number":90', ""),
    (("watch", "--explain", "--csv", "OUT/none/table.csv", *CRANE, LOG), 5, "", "/none/table.csv\nit cannot be written: "),
    (("report", "--log", LOG, "--csv", "OUT/table.csv", *CRANE, "OUT/page.html"), 2, "", "--csv"),
    (("diff", "OUT/none", "OUT"), 5, "", "/none/plan.txt\n"),
    (("diff", f"{HERE}/examples/crane", f"{HERE}/examples/valve"), 3, "node 5: new\n", ""),
    (("init", "OUT/none", "OUT"), 5, "", "/none\n"),
    (("init", f"{HERE}/tools", "OUT"), 3, "devices 0, PDOs 0, guessed periods 0\n", ""),
    (("report", "--json", *CRANE, "OUT/page.html"), 2, "", "--json"),
    (("report", "--log", "/dev/null", *CRANE, "OUT/page.html"), 3, "", "canplan: refused 94 0"),
    (("plan", "--explain", "OUT/empty.csv", VALVE, "OUT"), 3, "", "\nits EDS file is empty\n"),
    (("plan", "--explain", "OUT/utf16.csv", VALVE, "OUT"), 3, "", "\nits EDS file is UTF-16: CiA 306 has plain text, and canplan tidy makes one of it\n"),
    (("plan", "--explain", "OUT/modular.csv", VALVE, "OUT"), 3, "", "\nits EDS file is of a modular device ([SupportedModules]): "),
)


def fault_of(words, status, answer, error, folder):
    words = [word.replace("OUT", folder, 1) if word.startswith("OUT") else word for word in words]
    done = subprocess.run([PROGRAM, *words], capture_output=True, text=True, stdin=subprocess.DEVNULL, timeout=60)
    if done.returncode != status or answer not in done.stdout or error not in done.stderr:
        return f"{' '.join(words)}: status {done.returncode}, {done.stdout!r}, {done.stderr!r}"
    return None


def told_numbers(line):
    """The numbers that a line has, such as 1 to 3 and 5."""
    ranges = re.findall(r"(\d+)(?: to (\d+))?", line)
    return {number for first, last in ranges for number in range(int(first), int(last or first) + 1)}


def faults_of_numbers():
    """What is wrong with the numbers that are told to be explained, and with what is said of each number."""
    line = subprocess.run([PROGRAM, "explain", "7"], capture_output=True, text=True).stderr
    if not line.startswith("canplan: usage\ncanplan: explained are "):
        yield f"explain 7: {line!r}"
    for number in range(1, 256):
        done = subprocess.run([PROGRAM, "explain", str(number)], capture_output=True, text=True)
        wanted = (0, "") if number in told_numbers(line) else (2, line)
        if (done.returncode, done.stderr) != wanted or bool(done.stdout) != (done.returncode == 0):
            yield f"explain {number}: status {done.returncode}, {done.stdout!r}, {done.stderr!r}"


def faults_of_page():
    """What is wrong with docs/RULES.md, which is what `explain --all` prints."""
    said = subprocess.run([PROGRAM, "explain", "--all"], capture_output=True, text=True).stdout
    with open(f"{HERE}/docs/RULES.md", encoding="utf-8") as page:
        if said != page.read():
            yield "docs/RULES.md is not what explain --all prints"


def watched(*words):
    """The status of a watch, what it prints, and what it says on standard error."""
    done = subprocess.run([PROGRAM, "watch", *words], capture_output=True, text=True, stdin=subprocess.DEVNULL, timeout=60)
    return done.returncode, done.stdout, done.stderr


def faults_of_tables(folder):
    """What is wrong with the table of a log, which the document of the log stands for, and with the answer beside it."""
    new, old, absent, late = (f"{folder}/{name}.csv" for name in ("new", "old", "none/absent", "late"))
    write(old, b"old")
    answer = watched(*CRANE, LOG)
    wanted = table_of_document(json.loads(watched("--json", *CRANE, LOG)[1]))
    for table in (new, old):
        if watched("--csv", table, *CRANE, LOG) != answer or bytes_of(table).decode() != wanted:
            yield f"watch --csv {table}"
    if watched("--csv", absent, *CRANE, LOG) != (5, "", f"canplan: file {absent}\n"):
        yield "a table that cannot be written"
    os.remove(new)
    if watched("--csv", new, *CRANE, f"{folder}/none.csv") != (3, "", "canplan: refused 90 1\n") or os.path.exists(new):
        yield "a table of a log that is refused"
    write(late, bytes_of(VALVE).replace(b",670,", b",1,"))
    if watched("--csv", new, f"{HERE}/examples/valve/nodes.csv", late, LOG) != (4, "no rate passes\n", "") or os.path.exists(new):
        yield "a table where no rate passes"


def faults_of_no_words():
    """What is wrong with a call with no words at a terminal, which is help."""
    ours, its = pty.openpty()
    done = subprocess.run([PROGRAM], capture_output=True, text=True, stdin=its, timeout=60)
    os.close(ours)
    os.close(its)
    if done.returncode != 0 or "Usage: canplan" not in done.stdout:
        yield f"no words at a terminal: status {done.returncode}, {done.stdout!r}, {done.stderr!r}"


def write_devices(folder):
    """Writes EDS files that describe no PDO, each with a table of nodes beside it: an empty one, one in UTF-16, and that of a modular device."""
    modular = "[DeviceInfo]\nBaudRate_250=1\n[SupportedModules]\nNrOfEntries=2\n"
    for name, text in (("empty", b""), ("utf16", UNIT.encode("utf-16")), ("modular", modular.encode())):
        write(f"{folder}/{name}.eds", text)
        write(f"{folder}/{name}.csv", f"row,node,name,eds,period,jitter\ndevice,5,Valve,{name}.eds,0,0\n".encode())


def main():
    with tempfile.TemporaryDirectory() as folder:
        write(f"{folder}/none.csv", NO_REFUSAL)
        write_devices(folder)
        write(f"{folder}/node-099.cdcf", b"old")
        write(f"{folder}/node-099.txt", b"mine")
        faults = [fault for fault in (fault_of(*call, folder) for call in CALLS) if fault]
        if os.path.exists(f"{folder}/node-099.cdcf") or bytes_of(f"{folder}/node-099.txt") != b"mine":
            faults.append("files of an earlier plan, and they alone, are to be removed")
        faults += faults_of_tables(folder)
    faults += faults_of_numbers()
    faults += faults_of_page()
    faults += faults_of_no_words()
    return status_of(faults)


if __name__ == "__main__":
    sys.exit(main())
