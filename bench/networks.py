#!/usr/bin/env python3
"""Writes networks to time the planner on, the same bytes at each run.

    networks.py [OPTIONS] FOLDER [PDOS ...]

makes FOLDER/016 to FOLDER/512, or the named sizes (1 to 512): each has nodes.csv, pdos.csv and two EDS files.
Periods and deadlines grow with the number of PDOs, so all sizes load the bus alike. The first PDO of each drive is
urgent, and for these 250 kbit/s is refused. What an option does not speak of is the same with it and without.
"""
import argparse
import pathlib
import random

SIZES = [16, 32, 64, 128, 256, 512]
SEED = 20260
PDOS_OF_A_NODE = 8
RATES = {"sensor": (10, 20, 50, 125, 250, 500, 800, 1000), "drive": (50, 125, 250, 500, 800, 1000)}
WORDS = (1, 2, 3, 4, 4, 3, 2, 1)  # 16-bit objects in each PDO of a node; TPDOs and RPDOs have equal layouts
EVERY = (0, 1, 0, 2, 0, 3, 0, 4)  # at every how manieth SYNC each TPDO of a node is sent, or 0, with --synchronous
BY_EVENTS = 255  # the transmission type of the others
UNSIGNED8, UNSIGNED16, UNSIGNED32 = 5, 6, 7


def entry(name, kind, access, value, mapped=0):
    values = [f"DataType=0x{kind:04X}", f"AccessType={access}", f"DefaultValue={value}", f"PDOMapping={mapped}"]
    return [f"[{name}]"] + values


def record(index, object_type, subs):
    """The sections of an ARRAY or RECORD; subs are (type, access, default, mapped) from sub 1 on."""
    lines = [f"[{index:04X}]", f"ObjectType=0x{object_type}", f"SubNumber={len(subs) + 1}"]
    lines += entry(f"{index:04X}sub0", UNSIGNED8, "const", len(subs))
    for sub, fields in enumerate(subs, 1):
        lines += entry(f"{index:04X}sub{sub:X}", *fields)
    return lines


def pdo(number, words, communication, mapping, objects, cob_id, access, transmission=BY_EVENTS):
    """One PDO: its communication record, its mapping and the array that it maps, by index."""
    entries = [(UNSIGNED32, "rw", f"0x{objects + number:04X}{sub:02X}10") for sub in range(1, words + 1)]
    sending = [(UNSIGNED32, "rw", cob_id), (UNSIGNED8, "rw", transmission)]
    return {
        communication + number: record(communication + number, 9, sending),
        mapping + number: record(mapping + number, 9, entries),
        objects + number: record(objects + number, 8, [(UNSIGNED16, access, 0, 1)] * words),
    }


def every_of(number, synchronous):
    """At every how manieth SYNC a TPDO, from 0 on, is sent; 0 where it is sent by events."""
    return EVERY[number] if synchronous else 0


def eds(kind, name, synchronous):
    """The EDS file of this name, of a device of this kind."""
    sections = {0x1000: entry("1000", UNSIGNED32, "ro", 0), 0x1017: entry("1017", UNSIGNED16, "rw", 0)}
    for number, words in enumerate(WORDS):
        sections |= pdo(number, words, 0x1400, 0x1600, 0x2100, "0x80000000", "rww")
        transmission = every_of(number, synchronous) or BY_EVENTS
        sections |= pdo(number, words, 0x1800, 0x1A00, 0x2000, "0xC0000000", "ro", transmission)
    lines = ["[FileInfo]", f"FileName={name}", "[DeviceInfo]"]
    lines += [f"BaudRate_{rate}=1" for rate in RATES[kind]]
    lists = {"Mandatory": (0x1000, 0x1000), "Optional": (0x1001, 0x1FFF), "Manufacturer": (0x2000, 0x5FFF)}
    for word, (least, most) in lists.items():
        named = [index for index in sorted(sections) if least <= index <= most]
        lines += [f"[{word}Objects]", f"SupportedObjects={len(named)}"]
        lines += [f"{place}=0x{index:04X}" for place, index in enumerate(named, 1)]
    for index in sorted(sections):
        lines += sections[index]
    return lines


def between(words, least, most):
    """A number from least to most, rounded down to hundreds of microseconds."""
    return int(least + words.random() * (most - least)) // 100 * 100


def is_drive(node):
    return node % 2 == 0


def kind_of(node):
    return "drive" if is_drive(node) else "sensor"


def eds_name(node, options):
    return f"unit-{node:03}.eds" if options.own_eds else f"{kind_of(node)}.eds"


def devices_of(size):
    return (size + PDOS_OF_A_NODE - 1) // PDOS_OF_A_NODE


def sync_period(size):
    """With this the synchronous PDOs load the bus about as much as they do by events."""
    return 500 * size


def frames(size, options):
    """The rows of nodes.csv under its header, without the column of deadlines."""
    devices = devices_of(size)
    rows = [f"sync,0,,,{sync_period(size)},0"] if options.synchronous else []
    for node in range(1, devices + 1):
        rows += [f"device,{node},Unit {node},{eds_name(node, options)},0,0", f"emcy,{node},,,{125000 * devices},0",
                 f"heartbeat,{node},,,{100000 * devices},1000"]
    return rows


def nodes_table(size, options):
    """The records of nodes.csv."""
    header, rows = "row,node,name,eds,period,jitter", frames(size, options)
    if options.sdo_deadline is None:
        return [header] + rows
    devices, deadline = devices_of(size), options.sdo_deadline or ""
    responses = [f"sdo_response,{node},,,{150000 * devices},0,{deadline}" for node in range(1, devices + 1)]
    return [f"{header},deadline"] + [f"{row}," for row in rows] + responses


def pdos_table(size, synchronous):
    """The records of pdos.csv."""
    words = random.Random(SEED + size)
    devices = devices_of(size)
    pdos = ["node,tpdo,period,jitter,deadline,consumers"]
    for place in range(size):
        node, tpdo = place // PDOS_OF_A_NODE + 1, place % PDOS_OF_A_NODE + 1
        every = every_of(tpdo - 1, synchronous)
        drawn = between(words, 250 * size, 2500 * size)
        period = every * sync_period(size) or drawn
        jitter, deadline = between(words, 0, period / 10), between(words, period / 2, period)
        if is_drive(node) and tpdo == 1:
            jitter, deadline = 0, 66 * size
        consumer = f"{node % devices + 1}.{tpdo}" if words.random() < 0.5 else ""
        pdos.append(f"{node},{tpdo},{0 if every else period},{jitter},{deadline},{consumer}")
    return pdos


def write(folder, size, options):
    folder.mkdir(parents=True, exist_ok=True)
    files = {"nodes.csv": nodes_table(size, options), "pdos.csv": pdos_table(size, options.synchronous)}
    # the first two nodes are of both kinds
    for node in range(1, devices_of(size) + 1) if options.own_eds else (1, 2):
        name = eds_name(node, options)
        files[name] = eds(kind_of(node), name, options.synchronous)
    for name, lines in files.items():
        (folder / name).write_bytes("".join(f"{line}\n" for line in lines).encode("ascii"))


def number_within(least, most):
    def read(word):
        number = int(word)
        if not least <= number <= most:
            raise argparse.ArgumentTypeError(f"{word}: not from {least} to {most}")
        return number
    return read


def main():
    parser = argparse.ArgumentParser(description=__doc__, formatter_class=argparse.RawDescriptionHelpFormatter)
    parser.add_argument("folder", metavar="FOLDER", type=pathlib.Path)
    parser.add_argument("pdos", metavar="PDOS", nargs="*", type=number_within(1, 512))
    parser.add_argument("--own-eds", action="store_true", help="an EDS file for each node, unit-001.eds and so on")
    parser.add_argument("--synchronous", action="store_true",
                        help="each second PDO of a node is sent at every n-th SYNC, n being 1, 2, 3 and 4 in turn")
    parser.add_argument("--sdo-deadline", metavar="TIME", type=number_within(0, 60_000_000),
                        help="each node sends SDO responses, with this deadline in microseconds, or with 0 without one")
    options = parser.parse_args()
    for size in options.pdos or SIZES:
        write(options.folder / f"{size:03}", size, options)


if __name__ == "__main__":
    main()
