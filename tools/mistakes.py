#!/usr/bin/env python3
"""Makes the mistakes that people make with files and words, and looks whether canplan says what is wrong.

    python3 tools/mistakes.py

Each case is an example with some of its files changed, the words of a call in its folder, the status, and parts of what is said with `--explain`. Without that word
nothing but the line of the fault is on standard error, since it is no terminal.
"""
import os
import shutil
import subprocess
import sys
import tempfile

from files import bytes_of, status_of, write

HERE = os.path.dirname(os.path.dirname(os.path.realpath(__file__)))
PROGRAM = os.path.realpath(os.environ.get("CANPLAN", f"{HERE}/bin/canplan"))
NETWORK = ("nodes.csv", "pdos.csv")
PLAN = ("plan", "--explain", *NETWORK, "out")
LINES = "node,tpdo,period,jitter,deadline,consumers\n"
LONG = "EPOS4_Module_CompactCANopen_0170h_6551h_0000h.eds"
CANDUMP = b"(1700000000.000000) can0 181#0102\n(1700000000.010000) can0 181#0102\n"
TIP = "tip: a similar"


# ---- what becomes of a file

def text(content):
    """Another content."""
    return lambda old: content if isinstance(content, bytes) else content.encode()


def becomes(old, new):
    """A part that becomes another, each time that it is there."""
    def change(content):
        assert old.encode() in content, old
        return content.replace(old.encode(), new.encode())
    return change


def with_end(more):
    """More at the end."""
    return lambda old: old + more.encode()


def utf16(old):
    return old.decode().encode("utf-16")


def gone(_old):
    return None


def device(node="5", name="Valve", eds="unit.eds", period="0", row="device"):
    """A table of nodes with one row."""
    return text(f"row,node,name,eds,period,jitter\n{row},{node},{name},{eds},{period},0\n")


def pdos(*rows):
    """A table of PDOs."""
    return text(LINES + "".join(f"{it}\n" for it in rows))


def milliseconds(old):
    """The PDOs of the conveyor with deadlines in milliseconds."""
    rows = [it.split(",") for it in old.decode().splitlines()]
    return "".join(",".join([*it[:4], it[4].removesuffix("000"), *it[5:]]) + "\n" for it in rows).encode()


# ---- the cases: what is wrong, the example, its changed files, the words, the status, and what is said and what is not said of it with
# --explain. A word that begins with ! must not be said.

CASES = (
    ("an EDS file in UTF-16", "valve", {"unit.eds": utf16}, PLAN, 3, ("its EDS file is UTF-16", "canplan tidy")),
    ("a table in UTF-16", "valve", {"nodes.csv": utf16}, PLAN, 3, ("the file is UTF-16: save it as CSV",)),
    ("an EDS file in capitals", "valve", {"unit.eds": gone, "UNIT.EDS": text("")}, PLAN, 5,
     ("canplan: file unit.eds\n", "UNIT.EDS is there: names are compared with case", "it is wanted as unit.eds in /", "it is the EDS file of record 1 of nodes.csv")),
    ("an EDS file that is not there", "valve", {"unit.eds": gone}, PLAN, 5, ("it is wanted as unit.eds in /", "!is there")),
    ("a table in a folder that is not there", "valve", {}, ("plan", "--explain", "none/nodes.csv", "pdos.csv", "out"), 5, ("there is no folder none\n",)),
    ("--rates 300", "valve", {}, ("plan", "--rates", "300", *NETWORK, "out"), 2, ("'300'", "in kbit/s", "possible values: 10, 20, 50, 125, 250, 500, 800, 1000]", f"!{TIP}")),
    ("--rates 250000", "valve", {}, ("plan", "--rates", "125,250000", *NETWORK, "out"), 2, ("'250000'", "in kbit/s", f"!{TIP}")),
    ("--rates=250k", "valve", {}, ("plan", "--rates=250k", *NETWORK, "out"), 2, ("'250k'", "in kbit/s", f"!{TIP}")),
    ("--rate 300", "valve", {}, ("test", "--rate", "300", "pdos.csv"), 2, ("'300'", "in kbit/s", f"!{TIP}")),
    ("a choice that is no rate", "valve", {}, ("export", "xml", *NETWORK, "out"), 2, ("possible values: dbc, cdcf", "!kbit/s")),
    ("deadlines in milliseconds", "conveyor", {"pdos.csv": milliseconds}, PLAN, 4,
     ("warning: TPDO 1 of node 11 and 9 more: its deadline of 10 us is less than its frame alone takes at 1000 kbit/s, 95 us: is it a time in milliseconds?",)),
    ("periods in milliseconds", "conveyor", {"pdos.csv": pdos("11,1,10,0,10,1.1")}, PLAN, 3, ("column period", "usually: a time in milliseconds", "right: 10000 for 10 ms")),
    ("a deadline of 100 us", "valve", {"pdos.csv": pdos("5,1,10000,0,100,")}, PLAN, 4, ("its deadline of 100 us is less than its frame alone takes at 1000 kbit/s, ",)),
    ("the DCF of another node as EDS", "conveyor", {"io.eds": text(bytes_of(f"{HERE}/examples/conveyor/node-011.dcf"))}, PLAN, 0, ("this is the DCF of node 11, and Infeed and 3 more are several nodes",)),
    ("another product", "conveyor", {"pdos.csv": pdos("11,1,10000,0,10000,1.9")}, PLAN, 3, ("node 11 is Infeed, by the EDS file io.eds of the product IO-3216\n", "of the product CC-40\n")),
    ("an EDS file of 0 bytes", "valve", {"unit.eds": text("")}, PLAN, 3, ("its EDS file is empty",)),
    ("a COB-ID that is read-only", "valve", {"unit.eds": becomes("AccessType=rw", "AccessType=ro")}, PLAN, 3, ("1800h sub 1: its AccessType does not let it be written, so the device fixes this identifier",)),
    ("OUT that is not there", "valve", {}, ("plan", "--explain", *NETWORK, "nosuch"), 5, ("there is no folder nosuch: mkdir nosuch\n",)),
    ("OUT in a folder that is not there", "valve", {}, ("plan", "--explain", *NETWORK, "no/such"), 5, ("there is no folder no/such: mkdir -p no/such\n",)),
    ("OUT that is a file", "valve", {"nosuch": text("")}, ("plan", "--explain", *NETWORK, "nosuch"), 5, ("nosuch is no folder\n",)),
    ("a boot of nothing", "valve", {}, ("boot", *NETWORK), 2, ("--port <PORT>  boots the machine", "--seed <SEED>  tries the boot", "Usage: canplan boot <--port <PORT>|--seed <SEED>>")),
    ("a boot with no table", "valve", {}, ("boot", "--seed", "1"), 2, ("<NODES>", "!boots the machine")),
    ("a port that is can0", "valve", {}, ("boot", "--explain", "--port", "can0", *NETWORK), 5, ("can0 is a SocketCAN interface, and canplan speaks slcan on a serial device",)),
    ("a port that is not there", "valve", {}, ("boot", "--explain", "--port", "ttyACM7", *NETWORK), 5, ("it is wanted as ttyACM7 in /", "!SocketCAN")),
    ("a log as a trace", "valve", {"log": text(CANDUMP)}, ("judge", "--explain", *NETWORK, "log"), 3, ("this is a log of candump: canplan watch reads it",)),
    ("a log of Vector as a trace", "valve", {"log": text("date Mon Jan 1\nbase hex\n")}, ("judge", "--explain", *NETWORK, "log"), 3, ("this is a log of Vector (.asc): canplan watch",)),
    ("a log of PEAK as a trace", "valve", {"log": text(";$FILEVERSION=1.1\n")}, ("judge", "--explain", *NETWORK, "log"), 3, ("this is a log of PEAK (.trc): canplan watch",)),
    ("a trace that was cut off", "valve", {"log": text("kind,moment,id,event,bits,data\n")}, ("judge", "--explain", *NETWORK, "log"), 3, ("rule 69", "!this is a log")),
    ("a BLF log", "valve", {"log": text(b"LOGG\x90\0\0\0blf")}, ("watch", "--explain", *NETWORK, "log"), 3, ("this is a log of Vector in bytes (BLF): save it as .asc",)),
    ("a CSV log", "valve", {"log": text("time,id,data\n0.1,181,00\n")}, ("watch", "--explain", *NETWORK, "log"), 3, ("candump -L", ".asc", ".trc", "can.logconvert")),
    ("a page into a folder", "valve", {}, ("report", "--explain", *NETWORK, "out"), 5, ("out is a folder: name a file\n",)),
    ("the name of an EDS file is long", "valve", {"nodes.csv": device(eds=LONG)}, PLAN, 3, ("column eds", "usually: the maker's long name", "right: rename the file")),
    ("the name of an EDS file has a bracket", "valve", {"nodes.csv": device(eds="unit (2014).eds")}, PLAN, 3, ("right: rename the file",)),
    ("the name of an EDS file has an umlaut", "valve", {"nodes.csv": device(eds="\u00fcnit.eds")}, PLAN, 3, ("right: rename the file",)),
    ("a name has an umlaut", "valve", {"nodes.csv": device(name="K\u00fchlung")}, PLAN, 3, ("column name", "ASCII does not have", "right: Kuehlung")),
    ("a row mistyped", "valve", {"nodes.csv": device(row="devise")}, PLAN, 3, ("usually: a word mistyped", "!milliseconds")),
    ("a node in hexadecimal digits", "valve", {"nodes.csv": device(node="1Fh")}, PLAN, 3, ("column node", "usually: a hexadecimal number", "!milliseconds")),
    ("a period of a device", "valve", {"nodes.csv": device(period="0.5")}, PLAN, 3, ("column period", "usually: a time in milliseconds")),
    ("an index as TPDO", "valve", {"pdos.csv": pdos("5,1800,10000,0,670,")}, PLAN, 3, ("column tpdo", "right: 1 for the TPDO at 1800h")),
    ("a consumer with a colon", "conveyor", {"pdos.csv": pdos("11,1,10000,0,10000,1:1")}, PLAN, 3, ("column consumers", "usually: another sign than a point", "right: 11.1 12.3")),
    ("an object of settings with h", "valve", {"setup.csv": text("row,node,object,value\nset,5,6065h,1\n")}, (*PLAN, "--setup", "setup.csv"), 3, ("column object", "right: 6065 for 6065h sub 0")),
    ("an empty row of nodes", "valve", {"nodes.csv": with_end(",,,,,\n")}, PLAN, 3, ("canplan: refused 41 4\n", "the row is empty, as Excel leaves some below a table")),
    ("an empty row of PDOs", "valve", {"pdos.csv": with_end(",,,,,\n")}, PLAN, 3, ("the row is empty, as Excel leaves some below a table",)),
    ("none of several PDOs can be the lowest", "conveyor", {"pdos.csv": pdos("11,1,10000,0,900,1.1", "12,1,10000,0,1000,1.2", "13,1,8000,0,800,1.3")}, PLAN, 4,
     ("at 1000 kbit/s none of 3 PDOs can be the lowest of them: below the others TPDO 1 of node 12 needs 1225 us, its deadline is 1000 us\n",)),
    ("an RPDO of two senders", "conveyor", {"pdos.csv": pdos("11,1,10000,0,10000,1.1", "12,1,10000,0,10000,1.1")}, PLAN, 3, ("record 1 has it as a consumer already", "usually: one RPDO for two senders", "right: another RPDO of the consumer")),
    ("an RPDO of other lengths", "conveyor", {"pdos.csv": pdos("11,1,10000,0,10000,11.1")}, PLAN, 3, ("right: an RPDO with the same lengths",)),
    ("a consumer without a device", "conveyor", {"pdos.csv": pdos("11,1,10000,0,10000,99.1")}, PLAN, 3, ("node 99 has no device row", "right: a device row of the consumer's node")),
    ("several faults of the fields of PDOs", "conveyor", {"pdos.csv": pdos("11,1,10 ms,0,10000,1.1", "12,1,10000,0,10000,1.2", "13,1,10.5,0,8000,1.3", "14,x,10000,0,10000,1.4")}, PLAN, 3,
     ("canplan: refused 41 1\n", "also refused 41 3\npdos.csv, line 4: 13,1,10.5,0,8000,1.3\nwanted in column period: ", "also refused 41 4\npdos.csv, line 5: 14,x,", "!refused 41 2\n")),
    ("several faults of PDOs", "conveyor", {"pdos.csv": pdos("11,1,x,0,10000,1.1", "12,1,10000,0,10000,99.2", "13,1,8000,0,8000,1.3", "14,9,10000,0,10000,1.4", "13,1,8000,0,8000,")}, PLAN, 3,
     ("canplan: refused 41 1\n", "also refused 44 5\n", "also refused 48 2\npdos.csv, line 3: 12,1,", "also refused 45 4\npdos.csv, line 5: 14,9,")),
    ("several faults of nodes", "valve", {"nodes.csv": text("row,node,name,eds,period,jitter\ndevice,5,K\u00fchlung,unit.eds,0,0\nemcy,5,,,100,000,0\nheartbeat,5,,,1500,0\n")}, PLAN, 3,
     ("canplan: refused 41 1\n", "also refused 40 2\nnodes.csv, line 3: ", "also refused 41 3\nnodes.csv, line 4: heartbeat", "!also refused 42")),
    ("two EDS files", "conveyor", {"controller.eds": text("[FileInfo\n"), "io.eds": text("\n\nno key\n")}, PLAN, 3, ("canplan: refused 43 ", "also refused 43 6\nio.eds, line 3: no key\n", "!also refused 43 9")),
    ("thirty faults", "valve", {"pdos.csv": pdos(*["5,1,x,0,670,"] * 30)}, PLAN, 3, ("also refused 41 21\n", "there may be more\n", "!also refused 41 22\n")),
)


def make(folder, example, changes):
    """Lays an example with changed files into a folder."""
    shutil.copytree(f"{HERE}/examples/{example}", folder, dirs_exist_ok=True)
    os.makedirs(f"{folder}/out")
    for name, change in changes.items():
        path = f"{folder}/{name}"
        content = change(bytes_of(path) if os.path.exists(path) else b"")
        if content is None:
            os.remove(path)
        else:
            write(path, content)


def run(folder, words):
    done = subprocess.run([PROGRAM, *words], cwd=folder, capture_output=True, stdin=subprocess.DEVNULL, timeout=120)
    return done.returncode, done.stderr.decode()


def faults_of(name, example, changes, words, status, parts):
    """What is wrong with the answer on a mistake."""
    with tempfile.TemporaryDirectory() as folder:
        make(folder, example, changes)
        got, said = run(folder, words)
        if got != status:
            yield f"{name}: status {got}: {said}"
            return
        for part in parts:
            if (part[1:] in said) if part.startswith("!") else (part not in said):
                yield f"{name}: {part!r}: {said}"
        if "--explain" in words:
            _, alone = run(folder, [it for it in words if it != "--explain"])
            line = said.splitlines(keepends=True)[0] if said.startswith("canplan: ") else ""
            if alone != line:
                yield f"{name}: without --explain: {alone!r}"


def main():
    faults = [fault for case in CASES for fault in faults_of(*case)]
    return status_of(faults)


if __name__ == "__main__":
    sys.exit(main())
