"""What slaves tell of their devices, by their EDS files, and how a scan shows it. Independent of canplan."""
import csv

from eds import dictionary

# The object that has a device's name.
NAME = (0x1008, 0)


def naming_faults(requests, nodes):
    """Whether the names are not asked for last, of each of these nodes once, or something is sent amid them but requests for segments and an abort of the client."""
    firsts = [it for it in requests if it[2][0] == "40"]
    named = [int(ident, 16) - 0x600 for _, ident, data in firsts if data[1:4] == ["08", "10", "00"]]
    faults = [] if named == nodes and all(it[2][1:4] == ["08", "10", "00"] for it in firsts[len(firsts) - len(named):]) else [f"asks for the names of {named}"]
    last = None
    for _, ident, data in requests:
        if data[0] == "40":
            last = (ident, data[1:4])
        elif last != (ident, ["08", "10", "00"]) or len(data) != 8 or data[0] not in ("60", "70", "80"):
            faults.append(f"sends {ident} {' '.join(data)}")
    return faults


def told_by(folder, node, ends):
    """What a node of the network in a folder tells of its device: of each object its value, or None."""
    with open(f"{folder}/nodes.csv", newline="") as file:
        eds = next(row["eds"] for row in csv.DictReader(file) if row["row"] == "device" and row["node"] == str(node))
    entries = dictionary(f"{folder}/{eds}", node)
    told = {key: entries[key].value if key in entries else None for key in ((0x1000, 0), (0x1018, 1), (0x1018, 2), (0x1018, 3), NAME)}
    return {**told, **ends.get(node, {})}


def shown_name(name):
    """A name as it is shown."""
    return None if name is None else "".join(chr(it) if 0x20 <= it <= 0x7E and it not in b"\"\\" else "?" for it in name[:64])


def answering(nodes, ends, options):
    """Those of some nodes that answer a scan."""
    return [node for node in nodes if node <= int(options[1]) and ends.get(node, {}) is not None]


def scanned_text(folder, nodes, ends, is_document):
    """What is to be said of the nodes that answer, of the network in a folder."""
    told = {node: list(told_by(folder, node, ends).values()) for node in nodes}
    told = {node: (*values[:4], shown_name(values[4])) for node, values in told.items()}
    if is_document:
        return {"command": "scan", "nodes": [dict(zip(("node", "device_type", "vendor", "product", "revision", "name"), (node, *values))) for node, values in told.items()]}
    names = ("type", "vendor", "product", "revision")
    numbers = {node: " ".join(f"{name} {'-' if value is None else f'{value:08X}'}" for name, value in zip(names, values)) for node, values in told.items()}
    return "".join(f"node {node} {numbers[node]} name " + ("-" if values[4] is None else f'"{values[4]}"') + "\n" for node, values in told.items())
