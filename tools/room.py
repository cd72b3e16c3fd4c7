#!/usr/bin/env python3
"""Confirms by `canplan test` how far `canplan room` says that each number of a plan can go.

    python3 tools/room.py [COUNT [SEED]]

Makes COUNT random networks of up to five PDOs of one device (60 where nothing is said), some with fixed frames and an SDO frame that has a
deadline. Each number that `room` tells is put into a table of the planned streams: with it each PDO and that SDO frame passes, and with the
next number of its range one of them does not. Of one PDO of each network `--anew` is asked, too: `plan` has to find identifiers at that rate
with the period, the jitter and the deadline that are told, and none with the next ones. Of each rate that is refused, it has to find identifiers
with the deadlines that are told, and none with deadlines that are a thousandth shorter. The document has to say the same as the lines.
"""
import json
import os
import random
import re
import subprocess
import sys
import tempfile

from files import bytes_of, write
from margins import bytes_by_tpdo

HERE = os.path.dirname(os.path.dirname(os.path.realpath(__file__)))
PROGRAM = os.environ.get("CANPLAN", f"{HERE}/bin/canplan")
FIXED = {  # rows of the table of nodes, and the streams that they are
    "nmt,0,,,1000000,0,": {"id": 0, "bytes": 2, "period": 1000000, "jitter": 0, "deadline": None},
    "heartbeat,1,,,100000,0,": {"id": 0x701, "bytes": 1, "period": 100000, "jitter": 0, "deadline": None},
    "sdo_response,1,,,50000,0,9000": {"id": 0x581, "bytes": 8, "period": 50000, "jitter": 0, "deadline": 9000},
}
RANGES = {"period": (100, 60_000_000), "jitter": (0, 60_000_000), "deadline": (1, 60_000_000), "bytes": (0, 8)}
RISING = ("jitter", "bytes")


def called(*words):
    return subprocess.run([PROGRAM, *words], capture_output=True, text=True)


def drawn(chance, sizes):
    rows = []
    for tpdo in sorted(chance.sample(sorted(sizes), chance.randint(1, len(sizes)))):
        period = chance.choice([1000, 2000, 5000, 10000, 20000])
        rows.append({"tpdo": tpdo, "bytes": sizes[tpdo], "period": period, "jitter": chance.choice([0, 0, 100, period // 3]),
                     "deadline": chance.randint(period // 4 + 400, 2 * period)})
    return rows, [row for row in FIXED if chance.random() < 0.5]


def write_network(folder, rows, fixed):
    nodes = "".join(f"{row}\n" for row in fixed)
    write(f"{folder}/nodes.csv", f"row,node,name,eds,period,jitter,deadline\ndevice,1,PLC,plc.eds,0,0,\n{nodes}".encode())
    pdos = "".join(f"1,{r['tpdo']},{r['period']},{r['jitter']},{r['deadline']},\n" for r in rows)
    write(f"{folder}/pdos.csv", f"node,tpdo,period,jitter,deadline,consumers\n{pdos}".encode())


def all_pass(folder, rate, streams):
    """Whether each stream with a deadline passes."""
    lines = "".join(f"0x{s['id']:X},{s['bytes']},{s['period']},{s['jitter']},{s['deadline'] or ''}\n" for s in streams)
    write(f"{folder}/streams.csv", f"id,bytes,period,jitter,deadline\n{lines}".encode())
    done = called("test", "--rate", rate, f"{folder}/streams.csv")
    assert done.returncode == 0, done.stderr
    passed = {int(found, 16) for found in re.findall(r"^([0-9A-F]+)h pass ", done.stdout, re.M)}
    return all(s["id"] in passed for s in streams if s["deadline"] is not None)


def scaled(least, part, time):
    return max(least, -(-time * part // 1000))


def sped_up(streams, part, with_deadlines):
    """All periods in so many thousandths, and all deadlines too if that is asked."""
    def deadline(s):
        return scaled(1, part, s["deadline"]) if with_deadlines and s["deadline"] else s["deadline"]
    return [s | {"period": scaled(100, part, s["period"]), "deadline": deadline(s)} for s in streams]


def is_limit(passes, limit, following, in_range):
    """Whether a number passes, and the next one, if there is one, does not."""
    return passes(limit) and not (in_range(following) and passes(following))


def faults_of_rows(folder, rate, streams, told):
    for at, column, limit in told:
        def passes(number, at=at, column=column):
            return all_pass(folder, rate, [s | {column: number} if k == at else s for k, s in enumerate(streams)])
        low, high = RANGES[column]
        if not is_limit(passes, limit, limit + 1 if column in RISING else limit - 1, lambda n, low=low, high=high: low <= n <= high):
            yield (at, column, limit)


def faults_of_all(folder, rate, streams, pdos, numbers):
    for name, with_deadlines in (("periods", False), ("clock", True)):
        if not is_limit(lambda part, with_deadlines=with_deadlines: all_pass(folder, rate, sped_up(streams, part, with_deadlines)), numbers[name], numbers[name] - 1, lambda n: n >= 1):
            yield (name, numbers[name])
    last = max(s["id"] for s in pdos)

    def with_more(period):
        return all_pass(folder, rate, [*streams, {"id": last + 1, "bytes": 8, "period": period, "jitter": 0, "deadline": period}])
    if numbers["more"] is None:
        fails = not with_more(60_000_000)
    else:
        fails = is_limit(with_more, numbers["more"], numbers["more"] - 1, lambda n: n >= 100)
    if not fails:
        yield ("more", numbers["more"])


def read_pairs(text):
    """The numbers of a line, each with its limit."""
    words = text.split()
    return {words[k]: (int(words[k + 1]), int(words[k + 2])) for k in range(0, len(words), 3)}


def read_lines(text):
    """The rate, the pairs of each row by TPDO with its identifier, and the numbers of all rows at once."""
    rate = re.search(r"^rate (\d+)$", text, re.M)[1]
    rows = {int(tpdo): (int(found, 16), read_pairs(pairs)) for tpdo, found, pairs in re.findall(r"^pdo 1\.(\d+) id ([0-9A-F]+)h (.*)$", text, re.M)}
    numbers = {name: None if value == "none" else int(value) for name, value in re.findall(r"^(periods|clock|more) (\S+)$", text, re.M)}
    return rate, rows, numbers


def pairs_of(row):
    """The numbers of a row of a document, each with its limit."""
    def pair(value):
        return tuple(value[key]["us"] if isinstance(value[key], dict) else value[key] for key in ("now", "limit"))
    return {column: pair(row[column]) for column in RANGES}


def is_same_document(text, rate, rows, numbers):
    """Whether the document says what the lines say."""
    told = json.loads(text)
    room = told["room"]
    by_tpdo = {row["pdo"]["tpdo"]: (row["id"], pairs_of(row)) for row in room["pdos"]}
    more = room["more"]["us"] if room["more"] else None
    return told["rate"] == int(rate) and by_tpdo == rows and numbers == {"periods": room["periods"], "clock": room["clock"], "more": more}


MISS = re.compile(r"miss (\d+) deadlines (\d+|none)(?: tightest 1\.(\d+))?((?: without (?:NMT|SYNC|EMCY \d+))*)")


def words_of(miss):
    """The words of a line, as the document has them."""
    names = {"nmt": "NMT", "sync": "SYNC"}
    spare = "".join(f" without {names.get(it['row']) or 'EMCY ' + str(it['node'])}" for it in miss["without"])
    tightest = str(miss["tightest"]["tpdo"]) if miss["tightest"] else None
    return str(miss["rate"]), str(miss["deadlines"] or "none"), tightest, spare


def passes_at(folder, rate, rows, fixed):
    """Whether some identifiers pass at a rate."""
    write_network(folder, rows, fixed)
    done = called("plan", "--rates", str(rate), f"{folder}/nodes.csv", f"{folder}/pdos.csv", f"{folder}/out")
    assert done.returncode in (0, 4), done.stderr
    return done.returncode == 0


def longer(deadline, part):
    """A deadline at so many thousandths, in whole microseconds, rounded up."""
    return min(60_000_000, -(-deadline * part // 1000))


def stretched(rows, fixed, part):
    """All rows with their deadlines at so many thousandths."""
    def frame(row):
        fields = row.split(",")
        return ",".join([*fields[:-1], str(longer(int(fields[-1]), part)) if fields[-1] else ""])
    return [row | {"deadline": longer(row["deadline"], part)} for row in rows], [frame(row) for row in fixed]


def faults_of_plan(folder, words, fastest):
    """What `plan` and `report` say otherwise of what the fastest rate misses a plan by."""
    faults = []
    told = json.loads(called("plan", "--json", *words, folder).stdout)
    if told["misses"] != fastest:
        faults.append(f"plan --json misses {told['misses']}, not {fastest}")
    said = called("plan", "--explain", *words, folder).stderr
    called("report", *words, f"{folder}/page.html")
    with open(f"{folder}/page.html", encoding="utf-8") as file:
        page = file.read()
    for miss in fastest:
        times = miss["deadlines"] and f"{miss['deadlines'] // 1000}.{miss['deadlines'] % 1000:03} times as long"
        wanted = times or "though each deadline were 60 s"
        if wanted not in said or wanted not in page or said.count(" alone\n") != len(miss["without"]) or page.count(" kbit/s: no ") != len(miss["without"]):
            faults.append(f"the words or the page of a plan do not say {miss}")
    return faults


def faults_of_misses(folder, rows, fixed, misses):
    """What is wrong with what the rates miss a plan by."""
    wrong = []
    for miss in misses:
        part = miss["deadlines"]
        if part and not passes_at(folder, miss["rate"], *stretched(rows, fixed, part)):
            wrong.append(("fails", miss))
        if part and part > 1001 and passes_at(folder, miss["rate"], *stretched(rows, fixed, part - 1)):
            wrong.append(("less passes", miss))
    return wrong


def faults_of_missed(folder, rows, fixed, *words):
    """What is wrong with what is told where no rate passes; nothing where one does."""
    done = called("room", *words)
    if done.returncode != 4:
        return []
    lines = done.stdout.splitlines()
    assert lines[0] == "no rate passes" and all(MISS.fullmatch(line) for line in lines[1:]), done.stdout
    misses = json.loads(called("room", "--json", *words).stdout)["misses"]
    assert [MISS.fullmatch(line).groups() for line in lines[1:]] == [words_of(miss) for miss in misses], (lines, misses)
    return faults_of_plan(folder, words, misses[-1:]) + faults_of_misses(folder, rows, fixed, misses)


def faults_of_anew(folder, rate, rows, fixed, at):
    """What is wrong with how far the numbers of a row are said to go with identifiers chosen anew. Its bytes are those of its EDS file."""
    write_network(folder, rows, fixed)
    words = ("--anew", f"1.{rows[at]['tpdo']}", f"{folder}/nodes.csv", f"{folder}/pdos.csv")
    lines = called("room", *words).stdout.splitlines()
    document = json.loads(called("room", "--json", *words).stdout)
    said = re.fullmatch(rf"pdo 1\.{rows[at]['tpdo']} anew (.*)", lines[1])
    told = read_pairs(said[1])
    if lines[0] != f"rate {rate}" or len(lines) != 2 or document["rate"] != int(rate) or pairs_of(document["room"]["anew"]) != told:
        yield ("anew", lines, document)
    for column in ("period", "jitter", "deadline"):
        now, limit = told[column]

        def passes(number, column=column):
            return passes_at(folder, rate, [row | {column: number} if k == at else row for k, row in enumerate(rows)], fixed)
        low, high = RANGES[column]
        following = limit + 1 if column in RISING else limit - 1
        if now != rows[at][column] or not is_limit(passes, limit, following, lambda n, low=low, high=high: low <= n <= high):
            yield ("anew", column, limit)


def faults_of(folder, rows, fixed):
    """What is wrong with the room of a network; None where no rate passes."""
    write_network(folder, rows, fixed)
    tables = (f"{folder}/nodes.csv", f"{folder}/pdos.csv")
    missed = faults_of_missed(folder, rows, fixed, "--rates", "50,125", *tables)
    if missed:
        return missed
    write_network(folder, rows, fixed)
    done = called("room", *tables)
    if done.returncode == 4:
        return faults_of_missed(folder, rows, fixed, *tables) or None
    assert done.returncode == 0, done.stderr
    rate, told, numbers = read_lines(done.stdout)
    pdos = [row | {"id": told[row["tpdo"]][0]} for row in rows]
    streams = pdos + [FIXED[row] for row in fixed]
    wrong = [(row["tpdo"], column) for row in rows for column in RANGES if told[row["tpdo"]][1][column][0] != row[column]]
    limits = [(k, column, told[row["tpdo"]][1][column][1]) for k, row in enumerate(pdos) for column in RANGES]
    wrong += faults_of_rows(folder, rate, streams, limits)
    wrong += faults_of_all(folder, rate, streams, pdos, numbers)
    if not is_same_document(called("room", "--json", *tables).stdout, rate, told, numbers):
        wrong.append("the document")
    return wrong + list(faults_of_anew(folder, rate, rows, fixed, len(rows) // 2))


def main():
    count = int(sys.argv[1]) if len(sys.argv) > 1 else 60
    chance = random.Random(int(sys.argv[2]) if len(sys.argv) > 2 else 1)
    planned = 0
    with tempfile.TemporaryDirectory() as folder:
        os.mkdir(f"{folder}/out")
        write_network(folder, [], [])
        write(f"{folder}/plc.eds", bytes_of(f"{HERE}/examples/crane/plc.eds"))
        sizes = bytes_by_tpdo(folder)
        for number in range(count):
            rows, fixed = drawn(chance, sizes)
            wrong = faults_of(folder, rows, fixed)
            assert not wrong, (number, rows, fixed, wrong)
            planned += wrong is not None
    print(f"ok: {count} networks, {planned} of them with a plan")


if __name__ == "__main__":
    main()
