#!/usr/bin/env python3
"""Looks for frames that end later than the response-time test allows while transfers are disturbed, and tries the row `errors` of the table of nodes.

    python3 tools/errors.py [search] [--runs RUNS] [--seed SEED] [--only RUN]
    python3 tools/errors.py rows [--networks NETWORKS] [--seed SEED]

`search` needs no program. It simulates RUNS runs (100000 where nothing is said) of small random buses. A frame is as long as one of its size can be, and is queued within its
jitter. Events are at least a period apart, or by SYNC. A frame that is queued less than a bit time after a start may still join. A disturbance takes 1 to 166 bits from the
start of a transfer, or of an idle bus, and what it struck waits on. Half of the runs do the worst against one stream, the others nearly so. No frame may end later than
the greatest response of its stream, by a test that is written here anew. It counts disturbed transfers as one more stream above all. One run in 50 is looked at, whether it
is legal. The search has to see through weaker tests, such as one of 135 bits for an error and one without errors. --only repeats one run of a seed and tells it.

`rows` plans by the program: worked rows of one PDO, and each network of the examples with a row `errors`. Rates, identifiers and responses are known or computed here. A
row of period 0 has to change no byte of the files. `check` has to say that each refusal holds, and, if the row is missing, that it fails for a rate that passes then. Of
NETWORKS random networks (60 where nothing is said) each response has to be that of the test here, and each slower rate has to be refused for the cause that is found here.
"""
import argparse
import collections
import csv
import os
import random
import re
import shutil
import subprocess
import sys
import tempfile

from files import bytes_of, network_in, write

HERE = os.path.dirname(os.path.dirname(os.path.realpath(__file__)))
PROGRAM = os.environ.get("CANPLAN", f"{HERE}/bin/canplan")
sys.path.insert(0, f"{HERE}/bench")
import networks  # noqa: E402

TICKS = {10: 400, 20: 200, 50: 80, 125: 32, 250: 16, 500: 8, 800: 5, 1000: 4}
HORIZON = 40_000_000
NEVER = 1 << 60
HIT = 166  # the most bits of a disturbed transfer, with its recovery
SYNC = 0x80
AHEAD = -1  # in place of an identifier: SYNC's response, as it stands ahead of what SYNC sends


# ---- the response-time test. A load is what may be queued: a jitter, a period and the ticks of one transfer.

# every: at every how manieth SYNC an instance is queued, or 0
Stream = collections.namedtuple("Stream", "id bytes period jitter every", defaults=(0,))
Errors = collections.namedtuple("Errors", "period jitter")


def quotient(number, divisor):
    return -(-number // divisor)


def least(start, base, loads, further):
    """The least number from a start on that is a base and what loads may have queued by then, and by so much further; None above the horizon."""
    found = start
    while found <= HORIZON:
        following = base
        for jitter, period, cost in loads:
            following += -(-(found + further + jitter) // period) * cost
        if following <= found:
            return found
        found = following
    return None


def response_of(tau, own, above, blocking):
    """The greatest response of a load below others, in ticks, and its busy period; None twice where that is longer than the horizon."""
    jitter, period, cost = own
    busy = least(1, blocking, [own, *above], 0)
    if busy is None:
        return None, None
    wait = greatest = 0
    for instance in range(quotient(busy + jitter, period)):
        wait = least(wait, blocking + instance * cost, above, tau)
        greatest = max(greatest, jitter + wait + cost - instance * period)
    return greatest, busy


def most_ticks(tau, stream):
    return (55 + 10 * stream.bytes) * tau


def least_bits(stream):
    return 47 + 8 * stream.bytes


def load_of(tau, stream, ahead):
    """The load of a stream; one that is sent by SYNC has its jitter after SYNC's response."""
    return stream.jitter + (ahead if stream.every else 0), stream.period, most_ticks(tau, stream)


def ahead_of(tau, streams, errors):
    """SYNC's greatest response among streams, by loads of errors above all; None where it has none."""
    sync = next((it for it in streams if it.id == SYNC), None)
    if sync is None:
        return None
    above = errors + [load_of(tau, it, 0) for it in streams if it.id < SYNC]
    blocking = max((most_ticks(tau, it) for it in streams if it.id > SYNC), default=0)
    return response_of(tau, load_of(tau, sync, 0), above, blocking)[0]


def placed(tau, own, above, below, errors, ahead):
    """The greatest response and the busy period of a stream between others; None twice where there are none."""
    if ahead is None and any(it.every for it in (own, *above)):
        return None, None
    loads = errors + [load_of(tau, it, ahead) for it in above]
    return response_of(tau, load_of(tau, own, ahead), loads, max((most_ticks(tau, it) for it in below), default=0))


def responses(tau, streams, errors_for):
    """What `placed` says of each of some streams that are listed by rising identifiers, with the loads of errors that are counted for it, or ahead of what SYNC sends."""
    ahead = ahead_of(tau, streams, errors_for(AHEAD))
    return [placed(tau, own, streams[:at], streams[at + 1:], errors_for(own.id), ahead) for at, own in enumerate(streams)]


def loads_of(tau, errors):
    """Disturbed transfers as a load above all, if a network counts them."""
    return [(errors.jitter, errors.period, HIT * tau)] if errors and errors.period else []


# ---- weaker tests, which the search has to see through: what each makes of the load of errors for a stream of some identifier

WEAKER = (
    ("135 bits an error", lambda tau, load, own: [(load[0], load[1], 135 * tau)]),
    ("an error of one tick less", lambda tau, load, own: [(load[0], load[1], HIT * tau - 1)]),
    ("no errors", lambda tau, load, own: []),
    ("errors with no jitter", lambda tau, load, own: [(0, load[1], load[2])]),
    ("one error alone", lambda tau, load, own: [(0, NEVER, load[2])]),
    ("errors below NMT", lambda tau, load, own: [load] if own else []),
    ("no errors ahead of SYNC", lambda tau, load, own: [] if own == AHEAD else [load]),
)


# ---- a bus: streams by rising identifiers, how rare its disturbances are, and the responses

class Bus:
    def __init__(self, tau, streams, errors, weaker=None):
        self.tau, self.streams, self.errors = tau, streams, errors
        whole = loads_of(tau, errors)
        found = responses(tau, streams, lambda own: weaker(tau, whole[0], own) if weaker else whole)
        self.bounds = [NEVER if bound is None else bound for bound, _ in found]
        self.busy = [0 if busy is None else busy for _, busy in found]
        self.sync = next((at for at, it in enumerate(streams) if it.id == SYNC), None)
        self.synced = [at for at, it in enumerate(streams) if it.every]
        self.begin = max(errors.jitter, *(it.jitter for it in streams)) + 400 * tau
        self.greatest = [0] * len(streams)

    def told(self):
        yield f"{self.tau} ticks a bit, errors at least {self.errors.period} ticks apart, with a jitter of {self.errors.jitter}"
        for it, bound in zip(self.streams, self.bounds):
            sent = f"at every {it.every}. SYNC, {it.jitter} after it" if it.every else f"jitter {it.jitter}"
            yield f"{it.id:03X}h: {it.bytes} bytes, period {it.period}, {sent}; response {bound}"


def drawn_jitter(chance, tau, period):
    return chance.choice((0, 0, chance.randint(0, 3 * tau), chance.randint(0, period), period, 2 * period))


def drawn_ids(chance, count):
    """Distinct identifiers, by what frames have: NMT, SYNC, EMCY, PDO, SDO and heartbeats."""
    ids = set()
    while len(ids) < count:
        ids.add(chance.choice((0, SYNC, chance.randint(0x81, 0x85), chance.randint(0x181, 0x57F), chance.randint(0x181, 0x57F), chance.randint(0x581, 0x70A))))
    return sorted(ids)


def drawn_bus(chance, weaker):
    """A bus that is not overloaded, with 2 to 7 streams."""
    tau = chance.choice((1, 1, 2, 3, 4, 5, 8, 16))
    ids = drawn_ids(chance, chance.randint(2, 7))
    sizes = [chance.choice((0, 8, chance.randint(0, 8))) for _ in ids]
    shares = [chance.uniform(0.1, 1) for _ in range(len(ids) + 1)]
    scale = sum(shares) / chance.choice((0.4, 0.6, 0.75, 0.85, 0.92))
    between = max(1, int(HIT * tau * scale / shares[-1])) * chance.choice((1, 1, 5, 100))
    has_sync = SYNC in ids and chance.random() < 0.8
    streams, used, sync = [], HIT * tau / between, 0
    for number, size, share in zip(ids, sizes, shares):
        every = chance.choice((0, 1, 1, 2)) if has_sync and number >= 0x181 else 0
        period = every * sync or max(1, int((55 + 10 * size) * tau * scale / share))
        latency = chance.choice((0, chance.randint(0, 100 * tau), chance.randint(0, period), between))
        sync = period if number == SYNC else sync
        used += (55 + 10 * size) * tau / period
        streams.append(Stream(number, size, period, latency if every else drawn_jitter(chance, tau, period), every))
    if used > 0.95:
        return drawn_bus(chance, weaker)
    return Bus(tau, streams, Errors(between, chance.choice((0, 0, between // 3, between - 1, between, 2 * between, 3 * between))), weaker)


# ---- a run

# An instance that was sent, or that waits to the end and has no start; and a disturbance.
Instance = collections.namedtuple("Instance", "place event queued bits start")
Disturbance = collections.namedtuple("Disturbance", "event start bits")
MOST = 400  # transfers of a run


class Run:
    """A run of a bus, biased against one stream: the habits are how likely it is that the run does the worst at each turn."""

    def __init__(self, bus, chance, target, is_sharp):
        self.bus, self.chance, self.target = bus, chance, target
        for habit in ("aligned", "exact", "early", "late", "long", "joins", "strikes"):
            setattr(self, habit, 1.0 if is_sharp else chance.choice((1.0, 1.0, 0.9, 0.5)))
        self.is_by_sync = bool(bus.streams[target].every)
        self.span = max(bus.busy[target], 200 * bus.tau) + (bus.bounds[bus.sync] + bus.streams[target].jitter if self.is_by_sync else 0)
        self.last = bus.begin + (self.span if is_sharp else chance.randint(0, 3 * self.span))
        self.struck_from = bus.begin if is_sharp else bus.begin + chance.choice((-200 * bus.tau, 0, chance.randint(0, self.span)))
        self.spikes = 0 if is_sharp else chance.choice((0, 0.2))
        self.free = self.next_event = self.syncs = 0
        self.sent, self.hits, self.late_ones = [], [], []
        count = len(bus.streams)
        self.queued, self.event, self.mark = [NEVER] * count, [0] * count, [0] * count
        self.later = [collections.deque() for _ in range(count)]
        self.held, self.alone = [], bus.begin - 1  # what starts then is joined by none
        self.begin()

    def does(self, habit):
        return habit >= 1 or self.chance.random() < habit

    def begin(self):
        """Queues the first instance of each stream that has events of its own: the target's and those above at once, just behind the start of the longest below."""
        streams = self.bus.streams
        lower = [at for at in range(self.target + 1, len(streams)) if not streams[at].every]
        blocker = max(lower, key=lambda at: streams[at].bytes, default=None)
        if self.is_by_sync:
            # those that do not delay SYNC may wait until the target is queued
            self.held = [at for at in (*range(self.bus.sync + 1, self.target), *lower) if not streams[at].every and self.chance.random() < 0.7]
        for at, stream in enumerate(streams):
            if not stream.every and at not in self.held:
                self.put_first(at, self.first_moment(at, blocker))

    def first_moment(self, at, blocker):
        if self.does(self.aligned) and (at <= self.target or at == blocker):
            return self.bus.begin - (at == blocker)
        if at <= self.target:
            return self.bus.begin + self.chance.randint(-100 * self.bus.tau, self.span)
        return self.bus.begin + self.chance.choice((0, self.chance.randint(0, self.span)))

    def put_first(self, at, moment):
        jitter = self.bus.streams[at].jitter
        self.queued[at] = moment
        self.event[at] = moment - (jitter if self.does(self.late) else self.chance.randint(0, jitter))

    def go(self):
        while len(self.sent) < MOST:
            start = max(min(self.queued), self.free)
            if start > self.last:
                break
            if not self.has_spike(start) and not self.has_hit(start):
                self.send(self.winner(start), start)
        self.late_ones += [it for it in self.waiting() if self.free > it.event + self.bus.bounds[it.place]]
        return self

    def has_spike(self, start):
        """Whether a disturbance begins on the idle bus before a start."""
        moment = max(self.free, start - self.chance.randint(1, HIT * self.bus.tau)) if self.spikes else start
        return moment < start and self.chance.random() < self.spikes and self.has_hit(moment)

    def has_hit(self, start):
        """Whether a disturbance begins, if there may be one."""
        if start < self.next_event or start < self.struck_from or not self.does(self.strikes):
            return False
        event = max(start - self.bus.errors.jitter, self.next_event)
        bits = HIT if self.does(self.long) else self.chance.randint(1, HIT)
        self.hits.append(Disturbance(event, start, bits))
        self.next_event = event + self.bus.errors.period
        self.free = start + bits * self.bus.tau
        return True

    def winner(self, start):
        """The place of what is sent at a start: the highest that waits, or one above that is queued less than a bit time later and joins."""
        joined_by = start if start == self.alone else start + self.bus.tau - 1
        for at, queued in enumerate(self.queued):
            if queued <= start or queued <= joined_by and self.does(self.joins):
                return at
        raise AssertionError("nothing waits")

    def send(self, at, start):
        stream = self.bus.streams[at]
        most = 55 + 10 * stream.bytes
        bits = most if self.does(self.long) else self.chance.choice((least_bits(stream), self.chance.randint(least_bits(stream), most)))
        sent = Instance(at, self.event[at], self.queued[at], bits, start)
        self.sent.append(sent)
        self.free = start + bits * self.bus.tau
        took = self.free - sent.event
        if took > self.bus.greatest[at]:
            self.bus.greatest[at] = took
        if took > self.bus.bounds[at]:
            self.late_ones.append(sent)
        self.renew(at, stream)
        if at == self.bus.sync:
            self.end_sync(sent.event)

    def renew(self, at, stream):
        """Makes the next instance of a stream the one that is to be sent."""
        if stream.every:
            self.event[at], self.queued[at] = self.later[at].popleft() if self.later[at] else (0, NEVER)
            return
        self.event[at] += stream.period + (0 if self.does(self.exact) else self.chance.randint(0, stream.period))
        delay = 0 if self.does(self.early) else self.chance.randint(0, stream.jitter)
        self.queued[at] = max(self.queued[at], self.event[at] + delay)

    def end_sync(self, event):
        """Queues what is sent by SYNC, whose transfer ends now, and what waits until the target is queued."""
        latency = self.bus.streams[self.target].jitter if self.is_by_sync else 0
        for at in self.bus.synced:
            if self.syncs >= self.mark[at] and self.does(self.exact):
                self.mark[at] = self.syncs + self.bus.streams[at].every
                self.queue_by_sync(at, event, latency)
        if self.is_by_sync and not self.syncs:
            self.gather(self.free + latency)
        self.syncs += 1

    def gather(self, moment):
        """Does the worst once more as the target is queued: nothing is disturbed before, and what is not queued yet is not before."""
        streams = self.bus.streams
        blocker = max((at for at in self.held if at > self.target), key=lambda at: streams[at].bytes, default=None)
        for at in self.held:
            self.put_first(at, moment - (at == blocker and moment > self.free))
        self.held, self.alone = [], moment - 1
        if self.does(self.aligned):
            self.struck_from = moment
            for at, stream in enumerate(streams):
                if not stream.every and at != blocker and self.free < self.queued[at] < moment:
                    self.queued[at], self.event[at] = moment, max(self.event[at], moment - stream.jitter)

    def queue_by_sync(self, at, event, delay):
        jitter = self.bus.streams[at].jitter
        queued = self.free + (min(delay, jitter) if self.does(self.early) else self.chance.randint(0, jitter))
        if self.later[at]:
            self.later[at].append((event, max(queued, self.later[at][-1][1])))
        elif self.queued[at] < NEVER:
            self.later[at].append((event, max(queued, self.queued[at])))
        else:
            self.event[at], self.queued[at] = event, queued

    def waiting(self):
        """What waits as the run ends, but for later instances of streams that do."""
        return [Instance(at, self.event[at], queued, least_bits(it), None) for at, (it, queued) in enumerate(zip(self.bus.streams, self.queued)) if queued <= self.free]

    def told(self):
        """The lines of the run: a moment, and what starts then; those that are not sent come at its end."""
        entries = [(it.start, "disturbance", it) for it in self.hits]
        for it in self.sent + self.waiting():
            entries.append((it.start or self.free, f"{self.bus.streams[it.place].id:03X}h {'LATE' if it in self.late_ones else 'on time'}, queued {it.queued}", it))
        for start, text, it in sorted(entries):
            yield f"{start}: {text}, event {it.event}" + (", not sent" if it.start is None else f", {it.bits} bits, ends {it.start + it.bits * self.bus.tau}")


# ---- whether a run is legal: what follows knows nothing of how runs are made

def waits(it, moment):
    return it.queued <= moment and (it.start is None or moment <= it.start)


def faults_of_starts(bus, run, known):
    """What is wrong with who is sent at each start."""
    for it in run.sent:
        if not any(waits(z, it.start) for z in known):
            yield it, "nothing asks for it"
        if not it.queued < it.start + bus.tau:
            yield it, "queued too late"
        if any(waits(z, it.start) and z.place < it.place for z in known):
            yield it, "a higher one waits"


def faults_of_bus(bus, run, known):
    """What is wrong with when the bus is held, and whether it is idle while something waits."""
    held = sorted((it.start, it.start + it.bits * bus.tau) for it in (*run.sent, *run.hits))
    free = 0
    for start, end in held:
        if start < free:
            yield start, "two at one time"
        if any(max(z.queued, free) < start and (z.start is None or max(z.queued, free) <= z.start) for z in known):
            yield start, "idle before, and something waits"
        free = end


def faults_of_hits(bus, run):
    """What is wrong with the lengths of disturbances, and with how rare they are."""
    for it in run.hits:
        if not 1 <= it.bits <= HIT or not it.event <= it.start <= it.event + bus.errors.jitter:
            yield it, "a disturbance"
    for one, next_one in zip(run.hits, run.hits[1:]):
        if one.event + bus.errors.period > next_one.event or one.start >= next_one.start:
            yield next_one, "too near"


def anchor_of(bus, run, it):
    """What an instance hangs on: a mark, and the moment from which it is queued."""
    if not bus.streams[it.place].every:
        return it.event, it.event
    syncs = [(z.event, z.start + z.bits * bus.tau) for z in run.sent if z.place == bus.sync]
    number = [event for event, _ in syncs].index(it.event)
    return number, syncs[number][1]


def faults_of_stream(bus, run, known, at):
    """What is wrong with the instances of a stream: lengths, jitters, distances and order."""
    stream, mine = bus.streams[at], [it for it in known if it.place == at]
    anchors = [anchor_of(bus, run, it) for it in mine]
    for it, (_, moment) in zip(mine, anchors):
        if not least_bits(stream) <= it.bits <= 55 + 10 * stream.bytes or not moment <= it.queued <= moment + stream.jitter:
            yield it, "its length or its jitter"
    for one, next_one, (mark, _), (next_mark, _) in zip(mine, mine[1:], anchors, anchors[1:]):
        if mark + (stream.every or stream.period) > next_mark or one.queued > next_one.queued or next_one.start is not None and one.start >= next_one.start:
            yield next_one, "too near, or out of order"


def faults_of_run(bus, run):
    known = run.sent + run.waiting()
    for at in range(len(bus.streams)):
        yield from faults_of_stream(bus, run, known, at)
    yield from faults_of_starts(bus, run, known)
    yield from faults_of_bus(bus, run, known)
    yield from faults_of_hits(bus, run)


# ---- the search

RUNS_OF_A_BUS = 14
LOOKED_AT = 50  # one run in so many
ENOUGH = 20_000  # runs in which a weaker test has to be seen through


class Search:
    def __init__(self, seed, weaker=None):
        self.seed, self.weaker = seed, weaker
        self.bus = None
        self.counts = collections.Counter()

    def bus_of(self, number):
        return drawn_bus(random.Random(f"{self.seed} bus {number // RUNS_OF_A_BUS}"), self.weaker)

    def run_of(self, number):
        """A run by its number. The first ones of a bus do the worst, against each stream in turn."""
        turn, count = number % RUNS_OF_A_BUS, len(self.bus.streams)
        return Run(self.bus, random.Random(f"{self.seed} run {number}"), turn % count, turn < count).go()

    def close(self):
        """Counts the streams of a bus that is done."""
        for bound, greatest in zip(self.bus.bounds, self.bus.greatest) if self.bus else ():
            self.counts["streams"] += bound < NEVER
            self.counts["exact"] += greatest == bound
            self.counts["near"] += greatest + 1 == bound

    def step(self, number):
        """One run, and what is wrong with it, if anything is."""
        if self.bus is None or number % RUNS_OF_A_BUS == 0:
            self.close()
            self.bus = self.bus_of(number)
            self.counts["buses"] += 1
        run = self.run_of(number)
        self.counts["runs"] += 1
        self.counts["transfers"] += len(run.sent)
        self.counts["disturbances"] += len(run.hits)
        if number % LOOKED_AT == 0:
            self.counts["looked at"] += 1
            for it, fault in faults_of_run(self.bus, run):
                return run, f"is not legal: {it}, {fault}"
        return run, "has late frames" if run.late_ones else None


def tell(search, number, run, fault):
    print(f"run {number} of seed {search.seed} {fault}")
    for line in (*search.bus.told(), *run.told()):
        print(f"  {line}")


def seen_through(seed):
    """Of each weaker test, after how many runs the search finds a late frame."""
    for name, weaker in WEAKER:
        search = Search(seed, weaker)
        found = next((number for number in range(ENOUGH) if search.step(number)[0].late_ones), None)
        assert found is not None, f"{name}: no late frame in {ENOUGH} runs"
        assert not list(faults_of_run(search.bus, search.run_of(found))), f"{name}: run {found} is not legal"
        yield f"{name} after {found + 1}"


def search_runs(seed, runs):
    search = Search(seed)
    for number in range(runs):
        run, fault = search.step(number)
        if fault:
            tell(search, number, run, fault)
            print(f"again: python3 tools/errors.py search --seed {seed} --only {number}")
            return 1
    search.close()
    counts, weaker = search.counts, ", ".join(seen_through(seed))
    print(f"ok: {runs} runs of {counts['buses']} buses, {counts['looked at']} looked at; {counts['disturbances']} disturbances, {counts['transfers']} transfers, none late; of "
          f"{counts['streams']} streams {counts['exact']} meet their response and {counts['near']} miss it by a tick; weaker tests, with the runs that see through them: {weaker}")
    return 0


def search_one(seed, number):
    search = Search(seed)
    search.bus = search.bus_of(number)
    run = search.run_of(number)
    faults = [f"is not legal: {it}, {fault}" for it, fault in faults_of_run(search.bus, run)] + ["has late frames"] * bool(run.late_ones)
    tell(search, number, run, "; ".join(faults) or "is legal, and all are on time")
    return 1 if faults else 0


# ---- the program: worked rows of one PDO, of 8 bytes each 10 ms

SENT = {"nmt": (0, 2), "sync": (SYNC, 0), "emcy": (0x80, 8), "sdo_request": (0x600, 8), "sdo_response": (0x580, 8), "heartbeat": (0x700, 1)}
NO_REFUSAL = "rate,pdo,what,value\n0,0,version,1\n"
# the jitter of an error each 10 ms, the PDO's deadline, the rates, what plan answers, and the refusals
ONE_PDO = (
    (0, 1204, "250,500", "rate 250\npdo 1.4 id 181h response 4816\n", NO_REFUSAL),
    (0, 1203, "250,500", "rate 500\npdo 1.4 id 181h response 2408\nrefused 250 members 1\n",
     NO_REFUSAL + "250,1,late,0\n250,1,busy,1\n250,1,busy,4816\n250,1,queue,0\n250,1,queue,2656\n"),
    (10_000, 10_000, "250", "rate 250\npdo 1.4 id 181h response 7472\n", NO_REFUSAL),
    (10_000, 10_000, "500", "rate 500\npdo 1.4 id 181h response 3736\n", NO_REFUSAL),
    (10_000, 10_000, "1000", "rate 1000\npdo 1.4 id 181h response 1868\n", NO_REFUSAL),
)
# of examples with an error each second: the rate, identifiers and responses, and how many PDOs stand in the way of which rate
WORKED = {
    "crane": (500, {(42, 1): (0x186, 19528), (1, 4): (0x18A, 27528), (11, 1): (0x181, 15968)}, {50: "members 19", 125: "members 18", 250: "members 5"}),
    "conveyor": (250, {(1, 3): (0x186, 30496), (1, 4): (0x18A, 35616)}, {}),
    "drives": (1000, {}, {500: "members 7"}),
}
EVERY = tuple(networks.EVERY)
Plan = collections.namedtuple("Plan", "rate pdos refused")


def called(*words):
    return subprocess.run([PROGRAM, *words], capture_output=True, text=True)


def planned(folder, *words):
    """What `plan` answers for the network of a folder, into its folder out; the rate is None where none passes."""
    os.makedirs(f"{folder}/out", exist_ok=True)
    done = called("plan", *words, *network_in(folder), f"{folder}/out")
    assert done.returncode in (0, 4), (done.returncode, done.stderr)
    rate = re.search(r"^rate (\d+)$", done.stdout, re.M)
    pdos = re.findall(r"^pdo (\d+)\.(\d+) id ([0-9A-F]+)h response (\d+)$", done.stdout, re.M)
    refused = re.findall(r"^refused (\d+) (.*)$", done.stdout, re.M)
    return Plan(rate and int(rate[1]), {(int(node), int(tpdo)): (int(found, 16), int(needed)) for node, tpdo, found, needed in pdos}, {int(it): why for it, why in refused})


def add_row(folder, period, jitter):
    """Adds the row of errors to the table of nodes."""
    old = bytes_of(f"{folder}/nodes.csv")
    columns = old.splitlines()[0].count(b",") + 1
    write(f"{folder}/nodes.csv", old + f"errors,0,,,{period},{jitter}{',' * (columns - 6)}\n".encode())


def write_eds(folder, is_synced):
    write(f"{folder}/unit.eds", "".join(f"{line}\n" for line in networks.eds("drive", "unit.eds", is_synced)).encode())


def faults_of_one_pdo(folder):
    for jitter, deadline, rates, answer, refusals in ONE_PDO:
        write_eds(folder, False)
        write(f"{folder}/nodes.csv", b"row,node,name,eds,period,jitter\ndevice,1,Unit,unit.eds,0,0\n")
        write(f"{folder}/pdos.csv", f"node,tpdo,period,jitter,deadline,consumers\n1,4,10000,0,{deadline},\n".encode())
        add_row(folder, 10_000, jitter)
        os.makedirs(f"{folder}/out", exist_ok=True)
        done = called("plan", "--rates", rates, *network_in(folder), f"{folder}/out")
        if (done.stdout, bytes_of(f"{folder}/out/refusals.csv").decode()) != (answer, refusals):
            yield f"one PDO, jitter {jitter}, deadline {deadline}, rates {rates}: {done.stdout!r}, {bytes_of(f'{folder}/out/refusals.csv')!r}"


# ---- the streams of a network's tables

def rows_of(file):
    with open(file, newline="", encoding="utf-8-sig") as it:
        return list(csv.DictReader(it))


def fixed_streams(rows):
    """The fixed frames of a table of nodes, and its errors, if there are any. A microsecond is 4 ticks."""
    errors, streams = None, []
    for row in rows:
        period, jitter = 4 * int(row["period"]), 4 * int(row["jitter"])
        if row["row"] == "errors":
            errors = Errors(period, jitter)
        elif row["row"] != "device" and period:
            base, size = SENT[row["row"]]
            streams.append(Stream(base + int(row["node"]), size, period, jitter))
    return sorted(streams), errors


def every_of(folder, rows, pdo):
    """At every how manieth SYNC a PDO is sent, by its transmission type; 0 where it has a period."""
    if int(pdo["period"]):
        return 0
    eds = next(it["eds"] for it in rows if it["row"] == "device" and it["node"] == pdo["node"])
    text = bytes_of(f"{folder}/{eds}").decode("latin-1")
    section = re.search(rf"^\[{0x17FF + int(pdo['tpdo']):04X}sub2\]\s*$(.*?)(?=^\[|\Z)", text, re.M | re.S | re.I)[1]
    return int(re.search(r"^\s*DefaultValue\s*=\s*(\w+)", section, re.M | re.I)[1], 0)


def pdo_streams(folder, sizes):
    """The PDOs of a network by node and TPDO, with no identifier yet, and their deadlines."""
    rows, streams, deadlines = rows_of(f"{folder}/nodes.csv"), {}, {}
    sync = next((4 * int(it["period"]) for it in rows if it["row"] == "sync"), 0)
    for pdo in rows_of(f"{folder}/pdos.csv"):
        name, every = (int(pdo["node"]), int(pdo["tpdo"])), every_of(folder, rows, pdo)
        streams[name] = Stream(None, sizes[name], 4 * int(pdo["period"]) or every * sync, 4 * int(pdo["jitter"]), every)
        deadlines[name] = 4 * int(pdo["deadline"])
    return streams, deadlines


def sizes_by_dbc(folder, plan):
    """How many bytes each PDO of a plan has, by its CAN database."""
    done = called("export", "dbc", *network_in(folder), f"{folder}/plan.dbc")
    assert done.returncode == 0, done.stderr
    found = {int(number): int(size) for number, size in re.findall(rb"^BO_ (\d+) \w+: (\d+) ", bytes_of(f"{folder}/plan.dbc"), re.M)}
    return {name: found[number] for name, (number, _) in plan.pdos.items()}


def left_over(tau, pdos, deadlines, fixed, loads, ahead):
    """The PDOs that are left if the lowest place is given to one that passes there, as long as there is one."""
    left, below, above = dict(pdos), [it for it in fixed if it.id >= 0x181], [it for it in fixed if it.id < 0x181]

    def passes(name):
        needed, _ = placed(tau, left[name], above + [it for other, it in left.items() if other != name], below, loads, ahead)
        return needed is not None and needed <= deadlines[name]
    while lowest := next(filter(passes, left), None):
        below.append(left.pop(lowest))
    return left


def cause_of(rate, pdos, deadlines, fixed, errors):
    """Why no identifiers pass at a rate, as `plan` says it; None where some do."""
    tau = TICKS[rate]
    loads = loads_of(tau, errors)
    ahead = ahead_of(tau, fixed + [it._replace(id=0x181) for it in pdos.values()], loads)
    if ahead is None and any(it.every for it in pdos.values()):
        return "sync"
    left = left_over(tau, pdos, deadlines, fixed, loads, ahead)
    return f"members {len(left)}" if left else None


def is_response(plan, pdos, deadlines, fixed, errors):
    """Whether each PDO has an identifier of its own, and the response that the test here gives it, within its deadline."""
    tau = TICKS[plan.rate]
    streams = sorted(fixed + [it._replace(id=plan.pdos[name][0]) for name, it in pdos.items()])
    needed = {it.id: bound for it, (bound, _) in zip(streams, responses(tau, streams, lambda own: loads_of(tau, errors)))}
    told = {name: needed[number] for name, (number, response) in plan.pdos.items() if needed[number] == response <= deadlines[name]}
    return told.keys() == pdos.keys() and len(needed) == len(streams)


def faults_of_rates(plan, pdos, deadlines, fixed, errors, candidates):
    """What is wrong with the rate of a plan and with those that it refuses."""
    causes = {rate: cause_of(rate, pdos, deadlines, fixed, errors) for rate in candidates if plan.rate is None or rate <= plan.rate}
    refused = {rate: cause for rate, cause in causes.items() if cause}
    if refused != plan.refused:
        yield f"rate {plan.rate}, refused {plan.refused}, not {refused}"


def faults_of_plan(folder, plan, sizes, candidates):
    """What is wrong with a plan: its responses, its rate and those that it refuses, and what `check` says of these, with the row and without it."""
    fixed, errors = fixed_streams(rows_of(f"{folder}/nodes.csv"))
    pdos, deadlines = pdo_streams(folder, sizes)
    if plan.rate and not is_response(plan, pdos, deadlines, fixed, errors):
        yield f"responses {plan.pdos}"
    freed = set()
    # where SDO frames have deadlines a rate may be refused by one, and other PDOs may stand in the way
    if not any(it.get("deadline") for it in rows_of(f"{folder}/nodes.csv")):
        yield from faults_of_rates(plan, pdos, deadlines, fixed, errors, candidates)
        freed = {rate for rate in plan.refused if cause_of(rate, pdos, deadlines, fixed, None) is None}
    yield from faults_of_check(folder, plan, freed)


def checked(folder, tables):
    """What `check` says of the refusals of a folder, by the tables of another: the rates that hold, and those that fail."""
    done = called("check", *network_in(tables), f"{folder}/out/refusals.csv")
    return tuple({int(rate) for rate in re.findall(rf"^(\d+) {word}$", done.stdout, re.M)} for word in ("holds", "fails"))


def faults_of_check(folder, plan, freed):
    """What is wrong with what `check` says of a plan's refusals: all hold, but without the row those of rates that pass then fail."""
    if checked(folder, folder) != (set(plan.refused), set()):
        yield f"check {checked(folder, folder)}"
    with tempfile.TemporaryDirectory() as plain:
        copy_plain(folder, plain)
        if freed and freed - checked(folder, plain)[1]:
            yield f"check without the row {checked(folder, plain)}, and {freed} pass"


# ---- the examples with the row

def files_in(folder):
    return {it: bytes_of(f"{folder}/{it}") for it in sorted(os.listdir(folder))}


def copy_plain(source, folder):
    """Copies the tables and EDS files of a network, without the row of errors, if it has one."""
    os.makedirs(folder, exist_ok=True)
    for file in os.listdir(source):
        if file.endswith(".eds") or file in ("pdos.csv", "setup.csv"):
            shutil.copy(f"{source}/{file}", folder)
    rows = bytes_of(f"{source}/nodes.csv").splitlines(keepends=True)
    write(f"{folder}/nodes.csv", b"".join(it for it in rows if not it.startswith(b"errors,")))
    return folder


def copied(name, folder):
    return copy_plain(f"{HERE}/examples/{name}", folder)


def faults_of_zero(name, folder):
    """What differs if a row of period 0 is added."""
    plain, zero = copied(name, f"{folder}/plain"), copied(name, f"{folder}/zero")
    add_row(zero, 0, 0)
    if planned(plain) != planned(zero) or files_in(f"{plain}/out") != files_in(f"{zero}/out"):
        yield f"{name}: a row of period 0 changes the plan"


def faults_of_example(name, folder):
    """What is wrong with an example that has an error each second."""
    yield from faults_of_zero(name, folder)
    tables = copied(name, f"{folder}/errors")
    add_row(tables, 1_000_000, 0)
    plan = planned(tables)
    rate, pdos, refused = WORKED.get(name, (plan.rate, {}, {}))
    if plan.rate != rate or not pdos.items() <= plan.pdos.items() or not refused.items() <= plan.refused.items():
        yield f"{name}: {plan}"
    if plan.rate:
        yield from (f"{name}: {fault}" for fault in faults_of_plan(tables, plan, sizes_by_dbc(tables, plan), (*plan.refused, plan.rate)))


# ---- random networks

def drawn_nodes(chance):
    """The rows of a table of nodes: two nodes, fixed frames, and errors, which may have the period 0."""
    rows = ["device,1,Unit 1,unit.eds,0,0", "device,2,Unit 2,unit.eds,0,0"]
    rows += [f"sync,0,,,{chance.choice((2000, 5000, 10000))},{chance.choice((0, 50))}"] if chance.random() < 0.5 else []
    for row in ("nmt,0", "emcy,1", "emcy,2", "heartbeat,1", "sdo_response,2", "sdo_request,2"):
        rows += [f"{row},,,{chance.choice((50_000, 1_000_000))},{chance.choice((0, 100))}"] if chance.random() < 0.4 else []
    period = chance.choice((0, 400, 1000, 2000, 5000, 20_000, 1_000_000, 60_000_000))
    jitter = chance.choice((0, 0, 333, period // 2, period, 2 * period)) if period else 0
    return [*rows, f"errors,0,,,{period},{min(jitter, 60_000_000)}"]


def drawn_pdos(chance, has_sync):
    """The rows of a table of PDOs."""
    rows = []
    for node, tpdo in sorted(chance.sample([(node, tpdo) for node in (1, 2) for tpdo in range(1, 9) if has_sync or not EVERY[tpdo - 1]], chance.randint(1, 6))):
        period = chance.choice((1000, 2000, 5000, 10_000, 20_000))
        jitter = chance.choice((0, 0, 100, period // 3))
        rows.append(f"{node},{tpdo},{0 if EVERY[tpdo - 1] else period},{jitter},{chance.randint(period // 4 + 600, 2 * period)},")
    return rows


def faults_of_network(chance, folder):
    """What is wrong with the plan of a random network; None where no rate passes."""
    nodes = drawn_nodes(chance)
    pdos = drawn_pdos(chance, any(it.startswith("sync,") for it in nodes))
    write_eds(folder, True)
    write(f"{folder}/nodes.csv", "".join(f"{it}\n" for it in ("row,node,name,eds,period,jitter", *nodes)).encode())
    write(f"{folder}/pdos.csv", "".join(f"{it}\n" for it in ("node,tpdo,period,jitter,deadline,consumers", *pdos)).encode())
    plan = planned(folder)
    sizes = {(node, tpdo): 2 * networks.WORDS[tpdo - 1] for node in (1, 2) for tpdo in range(1, 9)}
    wrong = list(faults_of_plan(folder, plan, sizes, networks.RATES["drive"]))
    return plan.rate, [f"{fault}: {nodes}, {pdos}" for fault in wrong]


def try_rows(seed, count):
    faults, planned_ones, chance = [], 0, random.Random(seed)
    examples = sorted(it for it in os.listdir(f"{HERE}/examples") if os.path.isdir(f"{HERE}/examples/{it}"))
    with tempfile.TemporaryDirectory() as folder:
        faults += faults_of_one_pdo(folder)
    for name in examples:
        with tempfile.TemporaryDirectory() as folder:
            faults += faults_of_example(name, folder)
    for _ in range(count):
        with tempfile.TemporaryDirectory() as folder:
            rate, wrong = faults_of_network(chance, folder)
            faults, planned_ones = faults + wrong, planned_ones + (rate is not None)
    for fault in faults:
        print(fault)
    print(f"{len(faults)} faults" if faults else f"ok: {len(ONE_PDO)} worked rows, {len(examples)} examples, {count} networks, {planned_ones} of them with a plan")
    return 1 if faults else 0


def main():
    parser = argparse.ArgumentParser(description=__doc__, formatter_class=argparse.RawDescriptionHelpFormatter)
    parser.add_argument("part", nargs="?", choices=("search", "rows"), default="search")
    parser.add_argument("--runs", type=int, default=100_000)
    parser.add_argument("--networks", type=int, default=60)
    parser.add_argument("--seed", type=int, default=1)
    parser.add_argument("--only", metavar="RUN", type=int)
    words = parser.parse_args()
    if words.part == "rows":
        return try_rows(words.seed, words.networks)
    return search_runs(words.seed, words.runs) if words.only is None else search_one(words.seed, words.only)


if __name__ == "__main__":
    sys.exit(main())
