#!/usr/bin/env python3
"""Compares `canplan plan --margin` with a look at every order of identifiers.

    python3 tools/margins.py [COUNT [SEED]]

Makes COUNT random tables of up to five PDOs of one device (100 where nothing is said). The rate has to be the slowest of the device's at
which some order passes the response-time test (Davis et al. 2007), computed here for each order, and the margin the greatest least
one of all orders there. If in some order those that can have more keep more, the greatest such margin has to be told as `others`. With `--explain` the PDOs that limit it have to be told: those that have just so much left. `plan` without the
word has to give the same rate.
"""
import itertools
import os
import random
import re
import subprocess
import sys
import tempfile

from files import bytes_of, write

HERE = os.path.dirname(os.path.dirname(os.path.realpath(__file__)))
PROGRAM = os.environ.get("CANPLAN", f"{HERE}/bin/canplan")
TICKS = {10: 400, 20: 200, 50: 80, 125: 32, 250: 16, 500: 8, 800: 5, 1000: 4}
HORIZON = 40_000_000
NODES = b"row,node,name,eds,period,jitter\ndevice,1,PLC,plc.eds,0,0\n"


def quotient(number, divisor):
    return -(-number // divisor)


def least(equation, start):
    """The least number from a start on that solves x = equation(x), or None above the horizon."""
    x = start
    while x <= HORIZON:
        following = equation(x)
        if following <= x:
            return x
        x = following
    return None


def response(streams, order, place, rate):
    """The greatest response of the stream at a place of an order, in ticks; None where its busy period is too long. A stream may say its bits."""
    ticks = TICKS[rate]
    cost = [stream.get("bits", 55 + 10 * stream["bytes"]) * ticks for stream in streams]
    above, own = order[:place], order[place]
    blocking = max((cost[k] for k in order[place + 1:]), default=0)

    def load(k, time):
        return quotient(time + streams[k]["jitter"], streams[k]["period"]) * cost[k]

    busy = least(lambda t: blocking + load(own, t) + sum(load(k, t) for k in above), 1)
    if busy is None:
        return None
    period, jitter = streams[own]["period"], streams[own]["jitter"]
    greatest = 0
    for instance in range(quotient(busy + jitter, period)):
        wait = least(lambda w: blocking + instance * cost[own] + sum(load(k, w + ticks) for k in above), 0)
        greatest = max(greatest, jitter + wait + cost[own] - instance * period)
    return greatest


def cap_of(streams, own, rate):
    """What a stream has left above all others."""
    order = [own, *(k for k in range(len(streams)) if k != own)]
    return streams[own]["deadline"] - response(streams, order, 0, rate)


def margins_of(streams, order, rate):
    """The least margin of an order, and the least of those that have less than above all others; None where a stream is late."""
    margins = []
    for place, own in enumerate(order):
        needed = response(streams, order, place, rate)
        if needed is None or needed > streams[own]["deadline"]:
            return None
        margins.append(streams[own]["deadline"] - needed)
    caps = [cap_of(streams, own, rate) for own in order]
    return min(margins), min((left for left, cap in zip(margins, caps) if left < cap), default=max(caps))


def by_all_orders(streams, rates):
    """The slowest rate, the greatest margin there, and the greatest of the others, if that is more."""
    for rate in rates:
        margins = [margins_of(streams, order, rate) for order in itertools.permutations(range(len(streams)))]
        passing = [margin for margin in margins if margin is not None]
        if passing:
            margin, others = max(all_keep for all_keep, _ in passing), max(others for _, others in passing)
            return rate, margin, others if others > margin else None
    return None


def rates_of(eds):
    return [rate for rate in TICKS if re.search(rf"^BaudRate_{rate}=1\s*$".encode(), eds, re.M)]


def called(*words):
    return subprocess.run([PROGRAM, *words], capture_output=True, text=True)


def planned(folder, *words):
    """The rate and the margins that the program tells; None where no rate passes."""
    done = called("plan", *words, f"{folder}/nodes.csv", f"{folder}/pdos.csv", f"{folder}/out")
    if done.returncode == 4:
        return None
    assert done.returncode == 0, done.stderr
    rate = re.search(r"^rate (\d+)$", done.stdout, re.M)
    margin = re.search(r"^margin (\d+)$", done.stdout, re.M)
    others = re.search(r"^others (\d+)$", done.stdout, re.M)
    return int(rate[1]), int(margin[1]) if margin else None, int(others[1]) if others else None


def tell_limits(folder, streams):
    """Whether the PDOs that are told as limiting the margin are those that have no more left."""
    done = called("plan", "--margin", "--explain", f"{folder}/nodes.csv", f"{folder}/pdos.csv", f"{folder}/out")
    margin = int(re.search(r"^margin (\d+)$", done.stdout, re.M)[1])
    response = {int(tpdo): int(needed) for tpdo, needed in re.findall(r"^pdo 1\.(\d+) id \S+ response (\d+)$", done.stdout, re.M)}
    wanted = {s["tpdo"] for s in streams if s["deadline"] - response[s["tpdo"]] == margin}
    told = re.findall(r"^the margin is limited by TPDO (\d+) of node 1, which has (\S+) us left$", done.stderr, re.M)
    return {int(tpdo) for tpdo, _ in told} == wanted and wanted and all(4 * float(left) == margin for _, left in told)


def bytes_by_tpdo(folder):
    """How many bytes each TPDO has, by the CAN database of a plan of all of them."""
    rows = "".join(f"1,{tpdo},1000000,0,1000000,\n" for tpdo in range(1, 6))
    write(f"{folder}/pdos.csv", f"node,tpdo,period,jitter,deadline,consumers\n{rows}".encode())
    done = called("export", "dbc", f"{folder}/nodes.csv", f"{folder}/pdos.csv", f"{folder}/plan.dbc")
    assert done.returncode == 0, done.stderr
    found = re.findall(rb"^BO_ \d+ TPDO(\d+)_\w+: (\d+) ", bytes_of(f"{folder}/plan.dbc"), re.M)
    return {int(tpdo): int(size) for tpdo, size in found}


def drawn(chance, sizes):
    streams = []
    for tpdo in sorted(chance.sample(sorted(sizes), chance.randint(1, len(sizes)))):
        period = chance.choice([500, 1000, 2000, 5000, 10000, 20000])
        streams.append({"tpdo": tpdo, "bytes": sizes[tpdo], "period": 4 * period, "jitter": 4 * chance.choice([0, 0, 100, period // 3]),
                        "deadline": 4 * chance.randint(period // 4 + 150, 2 * period)})
    return streams


def table_of(streams):
    rows = "".join(f"1,{s['tpdo']},{s['period'] // 4},{s['jitter'] // 4},{s['deadline'] // 4},\n" for s in streams)
    return f"node,tpdo,period,jitter,deadline,consumers\n{rows}".encode()


def main():
    count = int(sys.argv[1]) if len(sys.argv) > 1 else 100
    chance = random.Random(int(sys.argv[2]) if len(sys.argv) > 2 else 1)
    eds = bytes_of(f"{HERE}/examples/crane/plc.eds")
    told = 0
    with tempfile.TemporaryDirectory() as folder:
        os.mkdir(f"{folder}/out")
        write(f"{folder}/nodes.csv", NODES)
        write(f"{folder}/plc.eds", eds)
        sizes = bytes_by_tpdo(folder)
        for number in range(count):
            streams = drawn(chance, sizes)
            write(f"{folder}/pdos.csv", table_of(streams))
            wanted = by_all_orders(streams, rates_of(eds))
            found = planned(folder, "--margin")
            plain = planned(folder)
            assert found == wanted, (number, streams, found, wanted)
            assert (plain and plain[0]) == (found and found[0]), (number, streams, plain, found)
            if found is not None:
                assert tell_limits(folder, streams), (number, streams)
                told += 1
    print(f"ok: {count} tables, {told} of them with a plan")


if __name__ == "__main__":
    main()
