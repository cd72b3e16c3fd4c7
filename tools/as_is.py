#!/usr/bin/env python3
"""Compares what `canplan plan --as-is` says with `canplan test` over a table of the same streams.

    python3 tools/as_is.py [COUNT [SEED]]

Makes COUNT random networks of two devices (40 where nothing is said), whose TPDOs have drawn identifiers, some of them off, and some with fixed frames and an SDO
frame that has a deadline. At each rate those that fail have to be exactly the PDOs, and that SDO frame, that do not pass there. The first row whose identifier is
none that a PDO may have, or that of an earlier row, has to be refused. TPDOs that are on and have no row have to be told. The document has to say the same as the lines.
"""
import json
import os
import random
import re
import subprocess
import sys
import tempfile

from files import bytes_of, write
from margins import NODES, bytes_by_tpdo
from room import FIXED

HERE = os.path.dirname(os.path.dirname(os.path.realpath(__file__)))
PROGRAM = os.environ.get("CANPLAN", f"{HERE}/bin/canplan")
RATES = (10, 20, 50, 125, 250, 500, 800, 1000)
PERMITTED = [*range(0x181, 0x580), *range(0x680, 0x6E0)]
WRONG = [0, 0x80, 0x180, 0x580, 0x67F, 0x6E0, 0x7FF, 0x20000181]


def called(*words):
    return subprocess.run([PROGRAM, *words], capture_output=True, text=True)


def drawn_ids(chance):
    """Identifiers of the TPDOs of both devices, and which are off. Now and then one is none, or twice there."""
    names = [(node, tpdo) for node in (1, 2) for tpdo in range(1, 6)]
    ids = dict(zip(names, chance.sample(PERMITTED, len(names))))
    if chance.random() < 0.1:
        ids[chance.choice(names)] = chance.choice(WRONG)
    if chance.random() < 0.1:
        first, second = chance.sample(names, 2)
        ids[second] = ids[first]
    return ids, {name for name in names if chance.random() < 0.3}


def drawn_rows(chance, sizes):
    names = [(node, tpdo) for node in (1, 2) for tpdo in sorted(sizes)]
    rows = []
    for node, tpdo in chance.sample(names, chance.randint(1, 6)):
        period = chance.choice([1000, 2000, 5000, 10000, 20000])
        rows.append({"pdo": (node, tpdo), "bytes": sizes[tpdo], "period": period, "jitter": chance.choice([0, 0, 100, period // 3]),
                     "deadline": chance.randint(period // 4 + 400, 2 * period)})
    return rows, [row for row in FIXED if chance.random() < 0.5]


def eds_of(text, node, ids, off):
    """The EDS file of a device: the COB-ID of each TPDO, half of them by the node."""
    for (owner, tpdo), number in ids.items():
        if owner == node:
            cob_id = number + 0x40000000 + (0x80000000 if (node, tpdo) in off else 0)
            value = f"$NODEID+0x{cob_id - node:X}" if tpdo % 2 and number >= node else f"0x{cob_id:X}"
            pattern = rf"(\[{0x17FF + tpdo:X}sub1\][^\[]*?DefaultValue=)[^\n]*"
            text, count = re.subn(pattern, lambda found, value=value: found[1] + value, text, flags=re.I)
            assert count == 1, (node, tpdo)
    return text


def write_network(folder, text, rows, fixed, ids, off):
    for node in (1, 2):
        write(f"{folder}/own{node}.eds", eds_of(text, node, ids, off).encode("latin-1"))
    nodes = "".join(f"{row}\n" for row in fixed)
    write(f"{folder}/nodes.csv", f"row,node,name,eds,period,jitter,deadline\ndevice,1,A,own1.eds,0,0,\ndevice,2,B,own2.eds,0,0,\n{nodes}".encode())
    pdos = "".join("{},{},{},{},{},\n".format(*r["pdo"], r["period"], r["jitter"], r["deadline"]) for r in rows)
    write(f"{folder}/pdos.csv", f"node,tpdo,period,jitter,deadline,consumers\n{pdos}".encode())


def first_refused(rows, ids):
    """The record of the first row that cannot keep its identifier, if there is one."""
    for at, row in enumerate(rows):
        own = ids[row["pdo"]]
        if own not in PERMITTED or own in [ids[other["pdo"]] for other in rows[:at]]:
            return at + 1
    return None


def tested(folder, rate, streams):
    """What the test says of each stream, by its identifier: its words."""
    lines = "".join(f"0x{s['id']:X},{s['bytes']},{s['period']},{s['jitter']},{s['deadline'] or ''}\n" for s in streams)
    write(f"{folder}/streams.csv", f"id,bytes,period,jitter,deadline\n{lines}".encode())
    done = called("test", "--rate", str(rate), f"{folder}/streams.csv")
    assert done.returncode == 0, done.stderr
    return {int(line.split("h ")[0], 16): line.split()[1:] for line in done.stdout.splitlines()}


def name_of(stream):
    return "pdo {}.{}".format(*stream["pdo"]) if "pdo" in stream else f"sdo {stream['id']:X}"


def response_in(words):
    return "long" if words[0] == "long" else f"response {words[-1]}"


def wanted_lines(folder, rows, fixed, ids, off, rates):
    """The lines that are wanted, and all that fail by rate."""
    pdos = [row | {"id": ids[row["pdo"]]} for row in rows]
    streams = [*pdos, *(FIXED[row] for row in fixed)]
    slowest, refused, failing = None, [], {}
    for rate in rates:
        said = tested(folder, rate, streams)
        late = [s for s in streams if s["deadline"] is not None and said[s["id"]][0] != "pass"]
        if late:
            failing[rate] = [(name_of(s), response_in(said[s["id"]])) for s in late]
            refused.append(f"refused {rate} failing {len(late)} {name_of(late[0])} {response_in(said[late[0]['id']])}")
        elif slowest is None:
            slowest = [f"rate {rate}", *(f"{name_of(s)} id {s['id']:X}h response {said[s['id']][-1]}" for s in pdos)]
    unlisted = sorted(set(ids) - off - {row["pdo"] for row in rows})
    return [*(slowest or ["no rate passes"]), *refused, *(f"uncounted {n}.{t} id {ids[n, t] % 2 ** 29:X}h" for n, t in unlisted)], failing


def lines_of(value):
    """The lines that a document stands for, and all that fail by rate."""
    def name(one):
        return f"pdo {one['pdo']['node']}.{one['pdo']['tpdo']}" if one["pdo"] else f"sdo {one['id']:X}"

    def response(one):
        return f"response {one['response']['ticks']}" if one["verdict"] == "late" else "long"
    lines = [f"rate {value['rate']}"] if value["rate"] else ["no rate passes"]
    lines += [f"{name(one)} id {one['id']:X}h response {one['response']['ticks']}" for one in value["pdos"] if value["rate"]]
    failing = {one["rate"]: [(name(it), response(it)) for it in one["failing"]] for one in value["refused"]}
    lines += [f"refused {rate} failing {len(found)} {found[0][0]} {found[0][1]}" for rate, found in failing.items()]
    return lines + [f"{name(one).replace('pdo', 'uncounted')} id {one['id']:X}h" for one in value["uncounted"]], failing


def rates_of(text):
    return [rate for rate in RATES if re.search(rf"^BaudRate_{rate}=1", text, re.M | re.I)]


def is_as_wanted(chance, folder, text, sizes):
    """Tries one network; whether it was refused, and how many rates were."""
    rows, fixed = drawn_rows(chance, sizes)
    ids, off = drawn_ids(chance)
    write_network(folder, text, rows, fixed, ids, off)
    before = sorted(os.listdir(folder))
    words = ["plan", "--as-is", f"{folder}/nodes.csv", f"{folder}/pdos.csv"]
    done, told = called(*words), called(*words, "--json")
    assert sorted(os.listdir(folder)) == before
    record = first_refused(rows, ids)
    if record:
        assert (done.returncode, done.stderr, done.stdout) == (3, f"canplan: refused 140 {record}\n", ""), done
        error = json.loads(told.stdout)["error"]
        assert (error["number"], error["record"], error["table"]) == (140, record, "pdos"), error
        return True, 0
    wanted, failing = wanted_lines(folder, rows, fixed, ids, off, rates_of(text))
    assert done.stdout.splitlines() == wanted, (done, wanted)
    assert done.returncode == told.returncode == (0 if wanted[0] != "no rate passes" else 4), done
    assert lines_of(json.loads(told.stdout)) == (wanted, failing), (told.stdout, wanted, failing)
    said = called(*words, "--explain").stderr
    assert len(re.findall(r"^at \d+ kbit/s ", said, re.M)) == sum(map(len, failing.values())), said
    assert said.count(" is switched off in its device") == len(off & {row["pdo"] for row in rows}), said
    return False, len(failing)


def main():
    count = int(sys.argv[1]) if len(sys.argv) > 1 else 40
    chance = random.Random(int(sys.argv[2]) if len(sys.argv) > 2 else 1)
    text = bytes_of(f"{HERE}/examples/crane/plc.eds").decode("latin-1")
    with tempfile.TemporaryDirectory() as folder:
        write(f"{folder}/nodes.csv", NODES)
        write(f"{folder}/plc.eds", text.encode("latin-1"))
        sizes = bytes_by_tpdo(folder)
        found = [is_as_wanted(chance, folder, text, sizes) for _ in range(count)]
    networks, rates = sum(one for one, _ in found), sum(many for _, many in found)
    print(f"ok: {count} networks, {networks} of them refused, and {rates} rates of the others")


if __name__ == "__main__":
    main()
