"""Lines of a log as `candump -L` writes them, of a run's trace; and the lines, and the table of `--csv`, that a document of `watch --json` stands for."""

MOST_TOLD = 20


def ends_of(trace):
    """The identifier, the data and the microsecond of the end of each transfer of a trace."""
    data, ends = {}, []
    with open(trace) as file:
        next(file)
        for line in file:
            kind, moment, number, _, _, body = line.rstrip("\n").split(",")
            if kind == "queue":
                data.setdefault(number, []).append(body)
            elif kind == "end":
                ends.append((int(number), data[number].pop(0), int(moment) / 4))
    return ends


def stamped(at):
    return f"({at // 1000000}.{at % 1000000:06d})"


def line_of(at, number, body, channel="can0"):
    return f"{stamped(at)} {channel} {number:03X}#{body}"


def share(billionths):
    return f"{billionths // 10000000}.{billionths // 100000 % 100:02d}%"


def stream_line(it):
    begin = f"{it['id']:03X}h frames {it['frames']}"
    table = f"table {int(it['period']['us'])}"
    if it["distance"] is None:
        return f"{begin} {table}"
    least, mean, greatest = (it["distance"][key]["us"] for key in ("least", "mean", "greatest"))
    return f"{begin} distance {least} {mean} {greatest} {table} load {share(it['load'])}"


def errors_line(it):
    table = f"table {int(it['period']['us'])}"
    if it["distance"] is None:
        return f"errors frames {it['frames']} {table}"
    least, mean, greatest = (it["distance"][key]["us"] for key in ("least", "mean", "greatest"))
    return f"errors frames {it['frames']} distance {least} {mean} {greatest} {table}"


def table_row(it):
    distances = [it["distance"][key]["us"] for key in ("least", "mean", "greatest")] if it["distance"] else [""] * 3
    return ",".join(map(str, (f"{it['id']:03X}h", it["frames"], int(it["period"]["us"]), *distances, it["load"])))


def table_of_document(it):
    """The table of `--csv` that a document stands for; it is empty where no rate passes."""
    if not it["planned"]:
        return ""
    return "".join(f"{row}\n" for row in ("id,frames,period,least,mean,greatest,load", *map(table_row, it["streams"])))


def unknown_line(it):
    flags = {"data": 0, "remote": 1 << 30, "error": 1 << 29}[it["frame"]] | (1 << 31 if it["bits"] == 29 else 0)
    number = f"{it['id']:03X}" if flags == 0 else f"{it['id'] | flags:08X}"
    return f"unknown {number}h frames {it['frames']} first in line {it['first_line']}"


def heartbeat_line(it):
    return f"line {it['line']}: the heartbeat of node {it['node']} comes after {it['distance']['us']} us, its time is {it['period']['us']} us"


def notice_line(it):
    begin = f"line {it['line']}: "
    if it["kind"] == "command":
        return f"{begin}NMT {it['words']}, " + (f"node {it['node']}" if it["node"] else "all nodes")
    if it["kind"] == "boot-up":
        return f"{begin}node {it['node']} boots up"
    if it["kind"] == "emergency":
        return f"{begin}EMCY of node {it['node']}, code {it['code']:04X}h: {it['words']}"
    return f"{begin}SDO abort by the {it['by']} at node {it['node']}, {it['index']:04X}h sub {it['sub']}, {it['code']:08X}h: {it['words']}"


def breach_words(it, clock):
    named = f"{it['id']:03X}h"
    if it["kind"] == "unknown":
        if it["frame"] == "error":
            return "an error frame"
        named = f"{it['id']:08X}h of 29 bits" if it["bits"] == 29 else f"{named}, a remote frame," if it["frame"] == "remote" else named
        return f"{named} is of no sender in the tables"
    if it["kind"] == "length":
        return f"{named} has {it['bytes']} bytes, and {it['planned']} by the tables"
    if it["kind"] == "soon":
        least = it["least"]
        time, period, response, transfer, bit = (int(least[key]["us"]) for key in ("time", "period", "response", "transfer", "bit"))
        made = f"{least['periods']} x {period} us - {response} us response"
        if it["frame"] == "error":
            named = "an error frame"
        else:
            made += f" + {transfer} us frame - {bit} us bit"
        return f"{named} comes {it['distance']['us']} us after that of line {it['from_line']}; the least is {time} us ({made}), {clock}"
    if it["kind"] == "fallen":
        return f"the log's clock falls by {it['fall']['us']} us from line {it['from_line']} on, {clock.split(' and ')[0]} for the clock"
    return f"the transfers after line {it['from_line']} take {int(it['transfers']['us'])} us at least, and end {it['distance']['us']} us after it, {clock}"


def breach_line(it, clock):
    return f"line {it['line']}: {breach_words(it, clock)}; breaks: {it['breaks']}"


def lines_of_document(it):
    """The lines that a document stands for."""
    if not it["planned"]:
        return ["no rate passes"]
    clock = f"with {it['clock']['error']['us']} us and {it['clock']['drift']} ppm for the clock"
    lines = [f"rate {it['rate']} frames {it['frames']} time {it['time']['us']} us load {share(it['load'])}"]
    lines += [stream_line(stream) for stream in it["streams"]]
    lines += [errors_line(it["errors"])] if "errors" in it else []
    lines += [f"{stream['id']:03X}h never seen" for stream in it["streams"] if stream["frames"] == 0]
    lines += [unknown_line(stranger) for stranger in it["unknown"]]
    lines += [heartbeat_line(heartbeat) for heartbeat in it["late_heartbeats"]]
    lines += [notice_line(notice) for notice in it["noticed"]["told"]]
    counts = (("NMT commands", "commands"), ("boot-ups", "boot_ups"), ("EMCYs", "emergencies"), ("SDO aborts", "aborts"))
    lines += [f"{words} {it['noticed'][key]}" for words, key in counts if it["noticed"][key] > MOST_TOLD]
    if it["unended"] is not None:
        lines.append(f"line {it['unended']}: the last line has no end, and was left out")
    if it["may_be_distances"]:
        lines.append("the load is above 100 % and stamps fall: are these distances? --delta")
    lines += [breach_line(breach, clock) for breach in it["breaches"]["told"]]
    assert it["keeps"] == (it["breaches"]["count"] == 0)
    return lines + ["keeps to the tables" if it["keeps"] else f"breaches {it['breaches']['count']}"]
