#!/usr/bin/env python3
"""Plans devices of which each has one thing that is worth a look before one relies on the plan, and looks at how that is told.

    python3 tools/warned_plans.py

Of each device `plan --explain` has to tell its line, `plan --json` its number, node, record and place, the page of `report` its words, and
`plan --strict` has to end with status 3; `plan` with none of these words says the same as ever, with status 0 and no word on
standard error.
"""
import html
import json
import os
import subprocess
import sys
import tempfile

from files import bytes_of, status_of, write

HERE = os.path.dirname(os.path.dirname(os.path.realpath(__file__)))
PROGRAM = os.environ.get("CANPLAN", f"{HERE}/bin/canplan")
UNIT = bytes_of(f"{HERE}/examples/valve/unit.eds").decode().replace("\r\n", "\n")
TABLE = "node,tpdo,period,jitter,deadline,consumers\n"
NODES = "row,node,name,eds,period,jitter\ndevice,5,Valve,unit.eds,0,0\n"
ROW = "5,1,10000,0,8000,\n"
TWO = NODES + "device,6,Pump,unit.eds,0,0\n"


def listed(index, *sections):
    """Lists an index, and appends its sections."""
    return [("SupportedObjects=3\n", f"SupportedObjects=4\n4={index}\n"), ("", "\n".join(sections) + "\n")]


RECORD = "[1801]\nObjectType=9\n[1801sub1]\nDataType=7\nAccessType=rw"
SHORT = "[1801]\nObjectType=9\n[1801sub0]\nDataType=5\nAccessType=ro\nDefaultValue=2"
SERVER = "[1200]\nObjectType=9\n[1200sub1]\nDataType=7\nAccessType=ro\nDefaultValue=0x"
CLIENT = SERVER.replace("sub1", "sub2")
EMCY = "emcy,5,,,100000,0\n"
REQUEST = "sdo_request,5,,,100000,0\n"
# The number, the parts of the EDS text that become others (none: appended), the nodes, the rows of PDOs, the node, and a part of the words.
DEVICES = (
    (None, [], NODES, ROW, None, ""),
    (80, [("", RECORD + "\n")], NODES, ROW, 5, "TPDO 2 of Valve stands in [1801], which no list names: it is not switched off"),
    (80, [("", RECORD + "\n")], TWO, ROW, 5, "TPDO 2 of Valve and 1 more stands in [1801], "),
    (80, [("", "[1016]\nObjectType=8\n")], NODES, ROW, 5, "The watch on heartbeats of Valve stands in [1016], which no list names: a plan neither sees nor sets it"),
    (80, [("", "[1A01]\nObjectType=9\n")], NODES, ROW, 5, "The mapping of TPDO 2 of Valve stands in [1A01], which no list names"),
    (81, listed("0x1801", SHORT), NODES, ROW, 5, "TPDO 2 of Valve has no UNSIGNED32 at sub 1 of [1801]"),
    (82, [("[DeviceInfo]\n", "[DeviceInfo]\nCompactPDO=7\n")], NODES, ROW, 5, "by CompactPDO=7 Valve may have PDOs"),
    (83, [("3=0x1A00\n", "3=0x1A00\n4=0x2000\n")], NODES, ROW, 5, "4=0x2000 stands behind the number of entries"),
    (84, [("", "[0x2001]\nDataType=7\n")], NODES, ROW, 5, "[0x2001] is spelled otherwise"),
    (84, [("", "[2000 foo]\nDataType=7\n")], NODES, ROW, 5, "[2000 foo] is spelled otherwise"),
    (84, [("", "[2000.1]\nDataType=7\n")], NODES, ROW, 5, "[2000.1] is spelled otherwise"),
    (84, [("", "[2000sub1foo]\nDataType=7\n")], NODES, ROW, 5, "[2000sub1foo] is spelled otherwise"),
    (84, [("", "[Manufacturer]\n [2000 foo];Place=1\n")], NODES, ROW, 5, " [2000 foo];Place=1 is spelled otherwise"),
    (None, [("", "[2000Name]\nNrOfEntries=0\n[2000 ObjectLinks]\nObjectLinks=0\n[2222 foo]\nDataType=7\n[Manufacturer]\nPlace=2000 foo\n")], NODES, ROW, None, ""),
    (85, [("[DeviceInfo]\n", "[DeviceInfo]\nNrOfTXPDO=2\n")], NODES, ROW, 5, "NrOfTXPDO=2 is more than the lists of Valve name"),
    (86, [("", "[1800sub5]\nDataType=6\nAccessType=rw\nDefaultValue=9\n")], NODES, ROW, 5, "its event timer (1800h sub 5) is 9 ms"),
    (87, [("", "[1800sub3]\nDataType=6\nAccessType=rw\nDefaultValue=101\n")], NODES, ROW, 5, "its inhibit time (1800h sub 3) is 10100 us"),
    (88, listed("0x1014", "[1014]\nDataType=7\nAccessType=rw\nDefaultValue=0x85"), NODES, ROW, 5, "no row emcy of node 5"),
    (89, listed("0x1005", "[1005]\nDataType=7\nAccessType=rw\nDefaultValue=0x181"), NODES, ROW, 5, "1005h sub 0 is 00000181h"),
    (89, listed("0x1005", "[1005]\nDataType=7\nAccessType=rw\nDefaultValue=0x40000080"), NODES, ROW, 5, "node 5 makes SYNC itself"),
    (88, listed("0x1014", "[1014]\nDataType=7\nAccessType=rw\nDefaultValue=0x86"), NODES + EMCY, ROW, 5, "1014h sub 0 is 00000086h"),
    (None, listed("0x1200", SERVER + "606"), NODES + REQUEST, ROW, 5, "1200h sub 1 is 00000606h"),
    (None, listed("0x1200", SERVER + "605"), NODES, ROW, 5, "no row sdo_request of node 5: by its EDS file it has an SDO server (1200h sub 1)"),
    (None, listed("0x1200", CLIENT + "585"), NODES, ROW, 5, "no row sdo_response of node 5: by its EDS file it has an SDO server (1200h sub 2)"),
    (None, [("DefaultValue=0\n", "DefaultValue=1000\n")], NODES, ROW, 5, "no row heartbeat of node 5: by its EDS file it begins with a heartbeat (1017h)"),
    (None, [], NODES, "5,1,10000,8000,8000,\n", 5, "is not above its jitter"),
    (None, listed("0x1012", "[1012]\nDataType=7\nAccessType=rw\nDefaultValue=0x40000100"), NODES, ROW, 5, "node 5 sends TIME (100h)"),
    (None, listed("0x1006", "[1006]\nDataType=7\nAccessType=rw\nDefaultValue=20000"), NODES + "sync,0,,,10000,0\n", ROW, 5, "1006h is 20000 us"),
    (111, [("DefaultValue=255\n", "DefaultValue=255\nParameterValue=254\n")], NODES, ROW, 5, "ParameterValue=254 of Valve is not the DefaultValue"),
    (117, [("", "[DeviceComissioning]\nNodeID=11\n")], NODES, ROW, 5, "NodeID=11: this is the DCF of node 11, and Valve is node 5"),
    (117, [("", "[DeviceComissioning]\nNodeID=5\n")], TWO, ROW, 5, "NodeID=5: this is the DCF of node 5, and Valve and 1 more are several nodes"),
    (118, listed("0x1006", "[1006]\nDataType=7\nAccessType=rw\nDefaultValue=0\nLowLimit=10\nHighLimit=5"), NODES, ROW, 5, "node 5: 1006h sub 0 takes no value by its EDS file"),
    (119, [("", ";left out: DefaultValue=2000 counts\n")], NODES, ROW, 5, "DefaultValue=2000 counts is left out of Valve, since it has no one reading"),
    (119, [("", ";left out: LowLimit=x\n;left out: HighLimit=y\n")], NODES, ROW, 5, "LowLimit=x and 1 more lines are left out of Valve"),
    (None, [], NODES, "5,1,10000,0,130,\n", 5, "TPDO 1 of node 5: its deadline of 130 us is less than its frame alone takes at 1000 kbit/s, 135 us: is it a time in milliseconds?"),
    (116, [], NODES, "5,1,10000,0,700,\n", 5, "one error on the bus takes up to 664 us, and TPDO 1 of node 5 has 160 us left"),
)


def run(*words):
    it = subprocess.run([PROGRAM, *words], capture_output=True, timeout=60)
    return it.returncode, it.stdout, it.stderr.decode()


def changed(parts):
    text = UNIT
    for old, new in parts:
        assert text.count(old) == 1 or not old or old.startswith("SupportedObjects"), old
        text = text.replace(old, new, 1) if old else text + new
    return text


def of_place(text, warning):
    """What is wrong with the place of a warning of an EDS text."""
    if warning["number"] is None or warning["number"] > 85 and warning["number"] not in (111, 117, 119):
        if warning["file"] is not None or warning["line"] is not None:
            yield f"a place: {warning}"
        return
    line = text.splitlines()[warning["line"] - 1]
    shown = line.removeprefix(";left out: ")
    if warning["file"] != "unit.eds" or not (shown.startswith("[") or "=" in shown) or shown not in warning["words"]:
        yield f"another line: {warning}"


def of_told(tables, out, words):
    """What is wrong with the words of --explain and of the page."""
    told = run("plan", "--explain", *tables, out)[2]
    page = f"{out}/page.html"
    run("report", *tables, page)
    has_list = "Before you rely on this" in bytes_of(page).decode()
    lines = [line for line in told.splitlines() if line.startswith("warning: ")]
    if [words in line for line in lines] != ([True] if words else []):
        yield f"--explain: {told}"
    if has_list != bool(words) or html.escape(words) not in bytes_of(page).decode().replace("&#39;", "&#x27;"):
        yield "the page has not the words"


def of_device(folder, number, parts, nodes, rows, node, words):
    """What is wrong with what is told of a device."""
    text, out, tables = changed(parts), f"{folder}/out", (f"{folder}/nodes.csv", f"{folder}/pdos.csv")
    for name, content in (("unit.eds", text), ("nodes.csv", nodes), ("pdos.csv", TABLE + rows)):
        write(f"{folder}/{name}", content.encode())
    os.makedirs(out, exist_ok=True)
    plain = run("plan", *tables, out)
    if plain[0] not in (0, 4) or plain[2]:
        yield f"plan: {plain}"
        return
    strict = run("plan", "--strict", *tables, out)
    if strict != (plain[0] or (3 if words else 0), plain[1], ""):
        yield f"--strict: {strict}"
    status, answer, _ = run("plan", "--json", *tables, out)
    warnings = json.loads(answer)["warnings"]
    if status != plain[0] or [(it["number"], it["node"], it["record"]) for it in warnings] != ([(number, node, 1)] if words else []):
        yield f"--json: {warnings}"
    for warning in warnings:
        yield from of_place(text, warning)
    yield from of_told(tables, out, words)


def main():
    faults = []
    for device in DEVICES:
        with tempfile.TemporaryDirectory() as folder:
            faults += [f"{device[0]} {device[5]}: {fault}" for fault in of_device(folder, *device)]
    return status_of(faults)


if __name__ == "__main__":
    sys.exit(main())
