#!/usr/bin/env python3
"""Reads what `canplan export` writes with other readers, and compares it with the tables and the EDS files.

    python3 tools/export_files.py [FOLDER..]

The CAN database of each example, and of a network with names and objects that are rare, is read by canmatrix (Debian's
python3-canmatrix). Its messages have to be those of the plan and of the tables, and its signals those of the mappings. The frames
of a run, and the same with other bytes, are decoded by it: each signal has to have the value that the bytes have by the EDS files.
The concise DCFs are read back: they have to be the settings that the plan makes, in their order, and end where the DCF files end.
Words that are not understood have to be told with those that are.
"""
import configparser
import contextlib
import csv
import glob
import os
import random
import struct
import subprocess
import sys
import tempfile

from files import bytes_of, write

import canmatrix
import canmatrix.formats

HERE = os.path.dirname(os.path.dirname(os.path.realpath(__file__)))
PROGRAM = os.environ.get("CANPLAN", f"{HERE}/bin/canplan")
SIGNED = {0x02: 8, 0x03: 16, 0x04: 32, 0x15: 64}
REAL = {0x08: 32, 0x11: 64}
DUMMY = {1: 1, 2: 8, 3: 16, 4: 32, 5: 8, 6: 16, 7: 32}
FIXED = {"nmt": 0x000, "sync": 0x080, "emcy": 0x080, "sdo_response": 0x580, "sdo_request": 0x600, "heartbeat": 0x700}
SIZES = {"nmt": 2, "sync": 0, "emcy": 8, "sdo_response": 8, "sdo_request": 8, "heartbeat": 1}


def run(*words):
    it = subprocess.run([PROGRAM, *words], capture_output=True, timeout=600)
    return it.returncode, it.stdout, it.stderr.decode("latin-1")


def rows_of(file):
    with open(file, newline="", encoding="utf-8-sig") as it:
        return list(csv.DictReader(it))


class Device:
    """A device of a network: its row, and the objects of its EDS file."""

    def __init__(self, folder, row):
        self.node, self.name = int(row["node"]), row["name"]
        text = configparser.ConfigParser(strict=True, interpolation=None, delimiters=("=",), comment_prefixes=(";",))
        text.read_string(bytes_of(f"{folder}/{row['eds']}").decode("latin-1"))
        self.sections = {name.lower(): text[name] for name in text.sections()}

    def key(self, index, sub, key):
        for name in (f"{index:04x}sub{sub:x}", f"{index:04x}" if sub == 0 else ""):
            if name in self.sections and key in self.sections[name]:
                return self.sections[name][key]
        return None

    def value(self, index, sub):
        word = self.key(index, sub, "defaultvalue")
        if not word:
            return 0 if self.key(index, sub, "datatype") else None
        return sum(self.node if part.strip().upper() == "$NODEID" else int(part, 0) for part in word.split("+"))

    def data_type(self, index, sub):
        return int(self.key(index, sub, "datatype") or "0", 0)

    def mapping(self, record):
        """The entries of a mapping record: first bit, bits, index and sub."""
        start = 0
        for sub in range(1, (self.value(record, 0) or 0) + 1):
            entry = self.value(record, sub)
            yield start, entry % 256, entry >> 16, entry >> 8 & 255
            start += entry % 256

    def records(self):
        """The communication records that have a COB-ID, by rising index."""
        for index in sorted(int(name[:4], 16) for name in self.sections if name.endswith("sub1") and name[:2] in ("14", "15", "18", "19")):
            yield index


class Network:
    """The tables of a network, its devices and its plan."""

    def __init__(self, folder, plan):
        self.folder = folder
        nodes = rows_of(f"{folder}/nodes.csv")
        self.devices = {int(row["node"]): Device(folder, row) for row in nodes if row["row"] == "device"}
        self.frames = [row for row in nodes if row["row"] != "device" and int(row["period"]) > 0]
        self.beats = {int(row["node"]): int(row["period"]) // 1000 for row in nodes if row["row"] == "heartbeat"}
        self.sync = next((int(row["period"]) for row in nodes if row["row"] == "sync"), 0)
        self.pdos = rows_of(f"{folder}/pdos.csv")
        ids = [line.split() for line in plan.splitlines() if line.startswith("pdo ")]
        self.rate = int(plan.split()[1])
        self.ids = {words[1]: int(words[3][:-1], 16) for words in ids}

    def id_of(self, row):
        return self.ids[f"{row['node']}.{row['tpdo']}"]

    def period_of(self, row):
        if int(row["period"]):
            return int(row["period"])
        return self.sync * self.devices[int(row["node"])].value(0x17FF + int(row["tpdo"]), 2)

    def takers(self, row, start, bits):
        """The nodes whose RPDO has an object where a signal is."""
        for consumer in row["consumers"].split():
            node, rpdo = map(int, consumer.split("."))
            for at, wide, index, sub in self.devices[node].mapping(0x15FF + rpdo):
                if (at, wide) == (start, bits) and not (sub == 0 and DUMMY.get(index) == wide):
                    yield node


def unpacked(device, data, start, bits, index, sub):
    """The value of an object in the bytes of a PDO, by its data type."""
    number = int.from_bytes(data, "little") >> start & (1 << bits) - 1
    kind = device.data_type(index, sub)
    if kind in SIGNED and number >> bits - 1:
        return number - (1 << bits)
    if kind in REAL:
        return struct.unpack("<f" if bits == 32 else "<d", number.to_bytes(bits // 8, "little"))[0]
    return number


def commented(name):
    """A name as a comment has it: read as UTF-8 where it is, of ISO 8859-1 alone, without quotes and backslashes."""
    with contextlib.suppress(UnicodeDecodeError):
        name = name.encode("latin-1").decode("utf-8")
    shown = (it if " " <= it <= "~" or "\xa0" <= it <= "\xff" else "?" for it in name)
    return "".join(shown).replace('"', "'").replace("\\", "/")


def identified(name):
    return bool(name) and len(name) <= 32 and name.isascii() and name.replace("_", "a").isalnum() and not name[0].isdigit()


def faults_of_message(network, frame, row, names):
    """What is wrong with the message of a PDO."""
    device = network.devices[int(row["node"])]
    entries = list(device.mapping(0x19FF + int(row["tpdo"])))
    signals = {signal.start_bit: signal for signal in frame.signals}
    if len(signals) != len(frame.signals) or sorted(signals) != [at for at, *_ in entries]:
        yield "other signals than objects"
        return
    if frame.size != (sum(bits for _, bits, _, _ in entries) + 7) // 8 or [names.get(it) for it in frame.transmitters] != [device.node]:
        yield "length or sender"
    if int(frame.cycle_time) != max(1, (network.period_of(row) + 500) // 1000):
        yield "cycle"
    if len({signal.name for signal in frame.signals}) != len(frame.signals) or not all(identified(it.name) for it in frame.signals):
        yield "names of signals"
    for at, bits, index, sub in entries:
        signal, kind = signals[at], device.data_type(index, sub)
        label = device.key(index, sub, "parametername")
        if signal.size != bits or not signal.is_little_endian or signal.is_float != (kind in REAL):
            yield f"the bits of {signal.name}"
        if signal.is_signed != (kind in SIGNED or kind in REAL):
            yield f"the sign of {signal.name}"
        if {names.get(it) for it in signal.receivers} - {None} != set(network.takers(row, at, bits)):
            yield f"the receivers of {signal.name}"
        if not signal.comment.startswith(f"{index:04X}h sub {sub}: ") or label and commented(label) not in signal.comment:
            yield f"the comment of {signal.name}"


def faults_of_values(network, database, ids, rng):
    """What is wrong with decoded frames: those of a run, and the same with other bytes."""
    for number, data in ids:
        frame = database.frame_by_id(canmatrix.ArbitrationId(number, extended=False))
        row = next((row for row in network.pdos if network.id_of(row) == number), None)
        if frame is None:
            yield f"no message {number:X}h"
        if frame is None or row is None:
            continue
        device = network.devices[int(row["node"])]
        for body in (data, rng.randbytes(len(data)), bytes(byte ^ 255 for byte in data)):
            if len(body) != frame.size:
                yield f"the length of {number:X}h"
                break
            values = frame.decode(body)
            for at, bits, index, sub in device.mapping(0x19FF + int(row["tpdo"])):
                name = next(it.name for it in frame.signals if it.start_bit == at)
                wanted = unpacked(device, body, at, bits, index, sub)
                if repr(values[name].raw_value) != repr(wanted):
                    yield f"{number:X}h {name}: {values[name].raw_value} for {wanted}"


def trace_of(network, tables, out):
    """The identifiers and bytes of a run."""
    run("run", "--seed", "42", "--until", "300000", *tables, f"{out}/trace.csv")
    for row in rows_of(f"{out}/trace.csv"):
        if row["kind"] == "queue":
            yield int(row["id"]), bytes.fromhex(row["data"])


def faults_of_database(network, tables, out):
    """What is wrong with the CAN database of a network."""
    said = run("export", "dbc", *tables, f"{out}/plan.dbc")
    if said != (0, b"", ""):
        yield f"export dbc: {said}"
        return
    database = list(canmatrix.formats.loadp(f"{out}/plan.dbc").values())[0]
    frames = {frame.arbitration_id.id: frame for frame in database.frames}
    fixed = {FIXED[row["row"]] + int(row["node"]): row for row in network.frames}
    if sorted(frames) != sorted([*network.ids.values(), *fixed]) or len(frames) != len(database.frames):
        yield "other messages than streams"
        return
    if len({frame.name for frame in database.frames}) != len(frames) or not all(identified(it.name) for it in database.frames):
        yield "names of messages"
    names = dict(zip([ecu.name for ecu in database.ecus], network.devices))
    if len(names) != len(network.devices) or not all(map(identified, names)):
        yield "names of nodes"
    if int(database.attributes["Baudrate"]) != network.rate * 1000:
        yield "rate"
    for number, row in fixed.items():
        if frames[number].size != SIZES[row["row"]] or int(frames[number].cycle_time) != max(1, (int(row["period"]) + 500) // 1000):
            yield f"the message {number:X}h"
        if sum(signal.size for signal in frames[number].signals) != 8 * SIZES[row["row"]]:
            yield f"what is in {number:X}h"
    for row in network.pdos:
        yield from faults_of_message(network, frames[network.id_of(row)], row, names)
    yield from faults_of_values(network, database, trace_of(network, tables, out), random.Random(7))


def settings_of(network, device):
    """What the plan sets in a device: it switches PDOs off, switches the used ones on, and sets the heartbeat's time."""
    used = {}
    for row in network.pdos:
        if int(row["node"]) == device.node:
            used[0x17FF + int(row["tpdo"])] = network.id_of(row)
        for consumer in row["consumers"].split():
            node, rpdo = map(int, consumer.split("."))
            if node == device.node:
                used[0x13FF + rpdo] = network.id_of(row)
    offs, ons = [], []
    for index in device.records():
        cob_id = device.value(index, 1)
        if index in used or cob_id < 1 << 31:
            offs.append((index, 1, 4, 1 << 31 | cob_id))
        if index in used:
            ons.append((index, 1, 4, cob_id & 1 << 30 | used[index]))
    time, now = network.beats.get(device.node, 0), device.value(0x1017, 0)
    beat = [] if now is None or now == time else [(0x1017, 0, 2, time)]
    return offs + ons + beat


def read_concise(data):
    """The settings of a concise DCF (CiA 302-3, object 1F22h)."""
    (count,), at = struct.unpack_from("<I", data), 4
    for _ in range(count):
        index, sub, size = struct.unpack_from("<HBI", data, at)
        yield index, sub, size, int.from_bytes(data[at + 7 : at + 7 + size], "little")
        at += 7 + size
    if at != len(data):
        yield "more bytes than settings"


def faults_of_concise(network, tables, out):
    """What is wrong with the concise DCFs of a network."""
    folder = f"{out}/concise"
    os.mkdir(folder)
    said = run("export", "cdcf", *tables, folder)
    if said != (0, b"", ""):
        yield f"export cdcf: {said}"
        return
    if sorted(os.listdir(folder)) != sorted(["master.csv", *(f"node-{node:03}.cdcf" for node in network.devices)]):
        yield "other files than devices"
    for node, device in network.devices.items():
        settings = list(read_concise(bytes_of(f"{folder}/node-{node:03}.cdcf")))
        if settings != settings_of(network, device):
            yield f"the settings of node {node}: {settings}"
        dcf = configparser.ConfigParser(strict=True, interpolation=None, delimiters=("=",), comment_prefixes=(";",))
        dcf.read_string(bytes_of(f"{out}/node-{node:03}.dcf").decode("latin-1"))
        told = {name.lower(): int(dcf[name]["parametervalue"], 0) for name in dcf.sections() if "parametervalue" in dcf[name]}
        last = {(index, sub): value for index, sub, _, value in settings}
        if sorted(last.values()) != sorted(told.values()) or len(last) != len(told):
            yield f"the DCF file of node {node} ends elsewhere"
    told = rows_of(f"{folder}/master.csv")
    if [(row["object"], row["sub"]) for row in told] != [it for node in network.devices for it in (("1F22h", str(node)), ("1F81h", str(node)))] + [("1F89h", "0")]:
        yield "what a manager is told"
    first = min(network.devices)
    said = run("export", "cdcf", "--manager", str(first), *tables, folder)
    told = [(row["object"], row["sub"]) for row in rows_of(f"{folder}/master.csv")]
    slaves = [it for node in network.devices if node != first for it in (("1F22h", str(node)), ("1F81h", str(node)))]
    if said != (0, b"", "") or sorted(told) != sorted([("1F80h", "0"), *slaves, ("1F89h", "0")]):
        yield f"what node {first} is told as the manager: {said}"


def section(name, **keys):
    return f"[{name}]\n" + "".join(f"{key}={value}\n" for key, value in keys.items())


def record(index, *entries):
    """A record of a PDO: its entries from sub 0 on, each a data type and a value."""
    text = section(f"{index:04X}", ParameterName="PDO", ObjectType="0x9", SubNumber=len(entries))
    for sub, (kind, value) in enumerate(entries):
        text += section(f"{index:04X}sub{sub:X}", ParameterName="Entry", DataType=kind, AccessType="rw", DefaultValue=value)
    return text


RARE = [
    ("Drück", "0x7"), ("Größe größer", "0x4"), ("2nd speed", "0x3"), ("Speed", "0x5"), ("Speed", "0x2"),
    ("x" * 300, "0x8"), ("y" * 300, "0x11"), ("y" * 300, "0x15"), ("Big number", "0x1B"),
    *(("Flag", "0x1") for _ in range(9)), ('A "quoted" \\ name', "0x6"), ("Привет", "0x5"), ("", "0x5"),
]
BITS = {"0x1": 1, "0x2": 8, "0x3": 16, "0x4": 32, "0x5": 8, "0x6": 16, "0x7": 32, "0x8": 32, "0x11": 64, "0x15": 64, "0x1B": 64}
GROUPS = [[0, 1], [2, 3, 4, 5], [6], [7], [8], [*range(9, 21)]]


def rare_eds(encoding):
    """An EDS file with names and objects that are rare: two bytes of each group go into one PDO."""
    groups = GROUPS
    indexes = [0x1400, 0x1600] + [0x1800 + k for k in range(len(groups))] + [0x1A00 + k for k in range(len(groups))]
    text = section("FileInfo", FileName="rare.eds") + section("DeviceInfo", BaudRate_250=1, BaudRate_500=1, BaudRate_1000=1)
    text += section("MandatoryObjects", SupportedObjects=1, **{"1": "0x1000"})
    text += section("OptionalObjects", SupportedObjects=len(indexes) + 1, **{"1": "0x1017"}, **{str(k + 2): hex(it) for k, it in enumerate(indexes)})
    text += section("ManufacturerObjects", SupportedObjects=len(RARE), **{str(k + 1): hex(0x2000 + k) for k in range(len(RARE))})
    text += section("1000", ParameterName="Type", DataType="0x7", AccessType="ro") + section("1017", ParameterName="Heartbeat", DataType="0x6", AccessType="rw", DefaultValue=0)
    # An RPDO for the first TPDO, of which it takes the second object alone.
    text += record(0x1400, ("0x5", 2), ("0x7", "$NODEID+0x200"), ("0x5", 255))
    text += record(0x1600, ("0x5", 2), ("0x7", "0x00040020"), ("0x7", "0x20010020"))
    for k, group in enumerate(groups):
        text += record(0x1800 + k, ("0x5", 2), ("0x7", f"$NODEID+{hex(0x180 + (k % 4) * 0x100)}"), ("0x5", 255))
        entries = [("0x7", hex((0x2000 + it) << 16 | BITS[RARE[it][1]])) for it in group]
        text += record(0x1A00 + k, ("0x5", len(group)), *entries)
    for k, (name, kind) in enumerate(RARE):
        text += section(f"{0x2000 + k:04X}", ParameterName=name, DataType=kind, AccessType="rw", PDOMapping=1)
    return text.encode(encoding, "replace")


def write_rare(folder):
    """A network of devices that are named alike, and whose EDS files have such names."""
    rows = ["device,5,2 of two,rare.eds,0,0", "device,6,2-of two,other.eds,0,0", "device,7,a.b,rare.eds,0,0"]
    write(f"{folder}/nodes.csv", "\n".join(["row,node,name,eds,period,jitter", *rows, "sync,0,,,5000,0", "heartbeat,5,,,1000000,0", ""]).encode())
    pdos = [f"{node},{k + 1},{100000 + 300 * k},0,90000,{'' if k or node == 7 else f'{node + 1}.1'}" for node in (5, 6, 7) for k in range(len(GROUPS))]
    write(f"{folder}/pdos.csv", "\n".join(["node,tpdo,period,jitter,deadline,consumers", *pdos, ""]).encode())
    write(f"{folder}/rare.eds", rare_eds("latin-1"))
    write(f"{folder}/other.eds", rare_eds("utf-8"))


def faults_of_words():
    """What is wrong with what is said of words that are not understood."""
    for words in (["export"], ["export", "xml", "a", "b", "c"], ["export", "dbc", "a"], ["export", "dbc", "a", "b", "c", "d"]):
        status, told, said = run(*words)
        if status != 2 or told or not said:
            yield f"{' '.join(words)}: {status} {said}"
    said = run("export", "xml", "a", "b", "c")[2]
    if "dbc" not in said or "cdcf" not in said:
        yield f"what is possible is not said: {said}"


def faults_of(folder):
    tables = [f"{folder}/nodes.csv", f"{folder}/pdos.csv"]
    with tempfile.TemporaryDirectory() as out:
        status, plan, said = run("plan", *tables, out)
        if status != 0:
            yield f"plan: {status} {said}"
            return
        network = Network(folder, plan.decode())
        yield from faults_of_database(network, tables, out)
        yield from faults_of_concise(network, tables, out)


def main(folders):
    wrong = list(faults_of_words())
    print(f"words: {', '.join(wrong) or 'ok'}")
    with tempfile.TemporaryDirectory() as rare:
        write_rare(rare)
        for folder in [*folders, rare]:
            faults = list(faults_of(folder))
            wrong += faults
            print(f"{'rare names' if folder == rare else os.path.relpath(folder, HERE)}: {', '.join(faults) or 'ok'}")
    return 1 if wrong else 0


if __name__ == "__main__":
    sys.exit(main(sys.argv[1:] or sorted(glob.glob(f"{HERE}/examples/*/"))))
