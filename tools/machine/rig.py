#!/usr/bin/env python3
"""A CAN adapter that speaks slcan on a pseudo terminal, with the CANopen slaves of a network's tables behind it."""
import argparse, csv, json, os, random, select, signal, sys, termios, time, tty

import eds
from device import Device

RATES = {"0": 10, "1": 20, "2": 50, "3": 100, "4": 125, "5": 250, "6": 500, "7": 800, "8": 1000}


class Adapter:
    """Lawicel's text protocol: S, O, L, C, t, V, v, N, Z, F; CR is yes and BEL is no. It notes when it was given which command."""

    def __init__(self, args, out, frame, log):
        self.args, self.out, self.on_frame, self.log = args, out, frame, log
        self.line, self.open, self.passive, self.rate, self.stamps = b"", False, False, None, False
        self.given, self.closed_at = [], None
        self.sent = self.heard = self.bad = self.closed = 0
        self.random = random.Random(args.seed)

    def bytes(self, data):
        for b in data:
            if b == 13:
                self.do(self.line)
                self.line = b""
            elif b != 10:
                self.line += bytes([b])

    def yes(self, text=b""):
        if self.args.answers != "none":
            self.out(text + b"\r")

    def no(self, line):
        self.bad += 1
        self.log(f"adapter: refused {line!r}")
        if self.args.answers != "none":
            self.out(b"\x07")

    def do(self, line):
        text = line.decode("latin-1")
        if not text:
            return self.yes()
        kind, rest = text[0], text[1:]
        if kind != "t":
            self.given.append([time.monotonic(), text, kind not in self.args.refuse])
            self.closed_at = time.monotonic() if kind == "C" else None
        if kind in self.args.refuse:
            return self.no(line)
        if kind == "S" and rest in RATES and not self.open:
            self.rate = RATES[rest]
            return self.yes()
        if kind in "OL" and not rest and not self.open and self.rate:
            self.open, self.passive = True, kind == "L"
            self.log(f"adapter: open at {self.rate} kbit/s{', to listen only' if self.passive else ''}")
            return self.yes()
        if kind == "C" and not rest:
            if not self.open and not self.args.lenient:
                return self.no(line)
            self.closed += self.open and not self.passive
            self.open = False
            return self.yes()
        if kind == "V":
            return self.yes(b"V1013")
        if kind == "N":
            return self.yes(b"NA123")
        if kind == "F":
            return self.yes(b"F" + self.args.flags.encode())
        if kind == "Z" and rest in ("0", "1"):
            self.stamps = rest == "1"
            return self.yes()
        if kind == "t" and self.open and not self.passive:
            try:
                ident, size = int(rest[:3], 16), int(rest[3], 16)
                data = bytes.fromhex(rest[4:])
                if len(rest) != 4 + 2 * size or size > 8 or ident > 0x7FF or len(data) != size:
                    raise ValueError
            except (ValueError, IndexError):
                return self.no(line)
            self.heard += 1
            self.yes({"z": b"z", "cr": b"", "none": b""}[self.args.answers])
            if self.args.rate and self.args.rate != self.rate:
                return self.log(f"bus: error frames, {self.rate} kbit/s on a bus of {self.args.rate}")
            if self.args.echo:
                self.frame(ident, data)
            return self.on_frame(ident, data)
        return self.no(line)

    def frame(self, ident, data):
        """A frame was on the bus."""
        if not self.open:
            return
        if self.args.rate and self.args.rate != self.rate:
            return
        if self.args.garbled:
            self.out(b"#" + data.hex().encode() + b"\r")
            return
        r = self.random
        if r.random() < self.args.garbage:
            self.out(bytes(r.choice(b"\x00\xff\x80tTzr0159AFg\x07 \n") for _ in range(r.randint(0, 60))) + b"\r")
        if r.random() < self.args.noise:
            self.out(bytes(r.choice(b"\x00\xff t0A9") for _ in range(r.randint(1, 5))))
        text = f"t{ident:03X}{len(data)}{data.hex()}"
        text = text.lower() if self.args.lower else text.upper().replace("T", "t", 1)
        if self.stamps or self.args.stamps:
            text += f"{int(time.monotonic() * 1000) % 60000:04X}"
        if self.args.long_stamps:
            text += f"{int(time.monotonic() * 1000000) % 2 ** 32:08X}"
        self.sent += 1
        self.out(text.encode() + (b"\r\n" if self.args.line_feeds else b"\r"))


class Rig:
    def __init__(self, args):
        self.args, self.queue, self.begin = args, [], time.monotonic()
        self.log_file = open(args.log, "w", buffering=1) if args.log else None
        self.master, self.slave = os.openpty()
        tty.setraw(self.slave)
        if args.stty:  # what `stty raw -echo min 0 time 1` does
            mode = termios.tcgetattr(self.slave)
            mode[6][termios.VMIN], mode[6][termios.VTIME] = 0, 1
            termios.tcsetattr(self.slave, termios.TCSANOW, mode)
        os.set_blocking(self.master, False)
        if os.path.islink(args.link):
            os.unlink(args.link)
        os.symlink(os.ttyname(self.slave), args.link)
        self.outgoing = b""
        self.adapter = Adapter(args, self.out, self.from_manager, self.log)
        self.random = random.Random(args.seed + 1)
        self.devices = self.load()
        self.commands, self.next_other, self.next_sent, self.is_gone = [], self.begin, self.begin, False
        self.every = [[self.begin, float(seconds), int(ident, 16), int(count)] for ident, seconds, count in (text.split(":") for text in args.every)]

    def log(self, text):
        line = f"{time.monotonic() - self.begin:9.4f} {text}\n"
        (self.log_file or sys.stderr).write(line)

    def out(self, data):
        self.outgoing += data

    def load(self):
        folder, found = os.path.dirname(os.path.abspath(self.args.nodes)), {}
        faults = self.faults()
        files = {int(row["node"]): row["eds"] for row in csv.DictReader(open(self.args.nodes)) if row["row"] == "device"}
        for text in self.args.swap:
            a, b = map(int, text.split(":"))
            files[a], files[b] = files[b], files[a]
        for node, name in files.items():
            entries = eds.dictionary(os.path.join(folder, name), node)
            found[node] = Device(node, entries, self.begin, self.send, faults.get(node, {}), self.log)
        for text in self.args.identity:
            node, index, sub, value = text.split(":")
            entry = found[int(node)].entries[int(index, 16), int(sub, 16)]
            entry.default = entry.value = int(value, 16)
        for text in self.args.has:
            node, index, sub, value = text.split(":")
            device = found[int(node)]
            device.entries[int(index, 16), int(sub, 16)].value = int(value, 16)
            device.stored = {key: e.value for key, e in device.entries.items()}
        for text in self.args.holds:
            node, index, sub, count = text.split(":")
            entry = eds.Entry(int(index, 16), int(sub, 16), 0x0F, "rw", bytes(7 * i % 251 for i in range(int(count))))
            found[int(node)].entries[entry.index, entry.sub] = entry
        for text in self.args.name:
            node, name = text.split(":", 1)
            found[int(node)].entries[0x1008, 0] = eds.Entry(0x1008, 0, 0x09, "const", name.encode("latin-1"))
        return found

    def faults(self):
        all = {}
        at = lambda node: all.setdefault(int(node), {"lag": self.args.lag})
        for row in csv.DictReader(open(self.args.nodes)):
            if row["row"] == "device":
                at(row["node"])
        for node in self.args.silent:
            at(node)["silent"] = True
        for node in self.args.running:
            at(node)["running"] = True
        for node in self.args.quiet:
            at(node)["quiet"] = True
        for node in self.args.mute:
            at(node)["mute"] = True
        for text in self.args.late:
            node, seconds = text.split(":")
            at(node)["late"] = float(seconds)
        for text in self.args.slow:
            node, seconds = text.split(":")
            at(node)["lag"] = float(seconds)
        for text in self.args.abort:
            node, index, sub, code = text.split(":")
            at(node).setdefault("abort", {})[int(index, 16), int(sub, 16)] = int(code, 16)
        for text in self.args.slow_read:
            node, seconds = text.split(":")
            at(node)["read_lag"] = float(seconds)
        for text in self.args.unread:
            node, index, sub, code = text.split(":")
            at(node).setdefault("unread", {})[int(index, 16), int(sub, 16)] = int(code, 16)
        for text in self.args.wrong:
            node, index, sub = text.split(":")
            at(node)["wrong_mux"] = int(index, 16), int(sub, 16)
        for node in self.args.stores_nothing:
            at(node)["stores_nothing"] = True
        for text in self.args.lost:
            node, index, sub = text.split(":")
            at(node).setdefault("lost", set()).add((int(index, 16), int(sub, 16)))
        for text in self.args.error:
            node, code, register = text.split(":")
            at(node)["error"] = int(code, 16), int(register, 16)
        for text in self.args.reboot_at_read:
            node, after = text.split(":")
            at(node)["reboot_at_read"] = int(after)
        for name in ("bad_toggle", "hushed"):
            for text in getattr(self.args, name):
                node, segment = text.split(":")
                at(node)[name] = int(segment)
        for text in self.args.reboot:
            node, after = text.split(":")
            at(node)["reboot"] = int(after)
        return all

    def send(self, ident, data):
        self.log(f"<- {ident:03X} {data.hex(' ')}")
        self.adapter.frame(ident, data)

    def from_manager(self, ident, data):
        self.log(f"-> {ident:03X} {data.hex(' ')}")
        if ident == 0:
            self.commands.append(data.hex())
            if self.args.foreign and len(self.commands) == 1:
                self.adapter.frame(0, bytes.fromhex(self.args.foreign))
        if self.args.gone and self.adapter.heard >= self.args.gone:
            self.is_gone = True
        now = time.monotonic()
        for device in self.devices.values():
            device.frame(ident, data, now)

    def other(self, now):
        """What else is on a bus that does not run: EMCY, SDO frames and a heartbeat of nodes that are nobody's."""
        if self.args.traffic and now >= self.next_other:
            self.next_other = now + 1 / self.args.traffic
            r = self.random
            ident = r.choice([0x0A5, 0x17F, 0x5FF, 0x6FF, 0x100])
            self.adapter.frame(ident, bytes(r.randrange(256) for _ in range(r.randint(0, 8))))
            self.adapter.frame(0x77F, b"\x7f")

    def machine(self, now):
        """What a machine sends that runs: frames of some identifiers, each 10 ms."""
        if self.args.sends and now >= self.next_sent:
            self.next_sent = now + 0.01
            for ident in self.args.sends:
                self.adapter.frame(int(ident, 16), b"" if ident == "080" else bytes(4))

    def periodic(self, now):
        """Frames that are sent by themselves. Two of an identifier are never nearer than its time."""
        for each in self.every:
            due, seconds, ident, count = each
            if now >= due:
                each[0] = now + seconds
                self.send(ident, bytes(count))

    def write_some(self):
        while self.outgoing:
            n = self.random.randint(1, self.args.chunk) if self.args.chunk else len(self.outgoing)
            try:
                k = os.write(self.master, self.outgoing[:n])
            except BlockingIOError:
                return
            self.outgoing = self.outgoing[k:]
            if self.args.chunk:
                return

    def run(self):
        stop = []
        for s in (signal.SIGTERM, signal.SIGINT):
            signal.signal(s, lambda *_: stop.append(1))
        print("ready", self.args.link, flush=True)
        while not stop and not self.is_gone:
            now = time.monotonic()
            if now - self.begin > self.args.until:
                break
            closed_at, ended = self.adapter.closed_at, self.adapter.closed >= self.args.sessions
            if closed_at and now > closed_at + 1.0 and not self.args.stay and (ended or self.args.sessions == 1):
                break
            r, _, _ = select.select([self.master], [], [], 0.002)
            if r:
                try:
                    self.adapter.bytes(os.read(self.master, 4096))
                except (BlockingIOError, OSError):
                    pass
            now = time.monotonic()
            for device in self.devices.values():
                device.poll(now)
            self.other(now)
            self.machine(now)
            self.periodic(now)
            self.write_some()
        return self.report()

    def report(self):
        wanted_all, told, good = self.args.expect, {}, True
        for node, d in sorted(self.devices.items()):
            changed = {f"{e.index:04X}:{e.sub:02X}": f"{e.value:X}" if e.size else e.value.hex().upper() for e in d.entries.values() if e.value != e.default}
            one = {"state": d.told(), "boots": d.boots, "resets": d.resets, "starts": d.starts, "reads": d.reads,
                   "writes": len(d.writes), "stored": d.stored is not None, "aborted": [f"{i:04X}:{s:02X} {c:08X}" for i, s, _, c in d.writes if c], "changed": changed}
            if wanted_all:
                path = os.path.join(wanted_all, f"node-{node:03}.dcf")
                wrong = []
                for (index, sub), w in eds.dictionary(path, node, "parametervalue").items():
                    has = d.entries.get((index, sub))
                    if w.value is None or has is not None and has.value == w.value:
                        continue
                    found = "nothing" if has is None else f"{has.value:X}"
                    wrong.append(f"{index:04X}:{sub:02X} has {found}, the DCF {w.value:X}")
                one["as_dcf"], good = not wrong, good and not wrong
                one["wrong"] = wrong
                one["stored_as_dcf"] = d.stored is not None and all(
                    d.stored.get(key) == w.value for key, w in eds.dictionary(path, node, "parametervalue").items() if w.value is not None)
            told[node] = one
        summary = {"given": self.adapter.given, "commands": self.commands, "frames_from_manager": self.adapter.heard, "frames_to_manager": self.adapter.sent,
                   "refused_lines": self.adapter.bad, "rate": self.adapter.rate, "devices": told}
        if wanted_all:
            summary["all_as_dcf"] = good
        text = json.dumps(summary, indent=1)
        if self.args.report:
            open(self.args.report, "w").write(text + "\n")
        else:
            print(text)
        return 0


def words():
    p = argparse.ArgumentParser(description=__doc__)
    p.add_argument("nodes", help="the table of nodes; the EDS files lie in its folder")
    p.add_argument("link", help="a symbolic link that is made to the terminal, for canplan boot --port")
    p.add_argument("--expect", metavar="DIR", help="node-NNN.dcf files of canplan plan: each device is compared with its own at the end")
    p.add_argument("--rate", type=int, help="the bus's bit rate in kbit/s: at another nothing is heard")
    p.add_argument("--silent", nargs="*", default=[], metavar="NODE", help="never boots and never answers")
    p.add_argument("--running", nargs="*", default=[], metavar="NODE", help="is operational from the beginning, with a heartbeat")
    p.add_argument("--quiet", nargs="*", default=[], metavar="NODE", help="sends no heartbeat while it is operational")
    p.add_argument("--gone", type=int, default=0, help="the adapter is pulled out after so many frames from the manager")
    p.add_argument("--mute", nargs="*", default=[], metavar="NODE", help="boots, but has no SDO server")
    p.add_argument("--late", nargs="*", default=[], metavar="NODE:S", help="boots so many seconds after the reset")
    p.add_argument("--slow", nargs="*", default=[], metavar="NODE:S", help="answers SDO after so many seconds")
    p.add_argument("--lag", type=float, default=0.001, help="every device answers after so many seconds")
    p.add_argument("--abort", nargs="*", default=[], metavar="NODE:INDEX:SUB:CODE", help="refuses that write (hexadecimal but for NODE)")
    p.add_argument("--slow-read", nargs="*", default=[], metavar="NODE:S", help="answers uploads after so many seconds")
    p.add_argument("--unread", nargs="*", default=[], metavar="NODE:INDEX:SUB:CODE", help="refuses that upload (hexadecimal but for NODE)")
    p.add_argument("--identity", nargs="*", default=[], metavar="NODE:INDEX:SUB:VALUE", help="has another value there than its EDS file says")
    p.add_argument("--swap", nargs="*", default=[], metavar="NODE:NODE", help="the devices of these nodes have each other's number")
    p.add_argument("--wrong", nargs="*", default=[], metavar="NODE:INDEX:SUB", help="confirms that write with another sub")
    p.add_argument("--reboot", nargs="*", default=[], metavar="NODE:K", help="falls over at its K-th write, forgets all and boots again")
    p.add_argument("--stores-nothing", nargs="*", default=[], metavar="NODE", help="confirms each write, and stores nothing")
    p.add_argument("--lost", nargs="*", default=[], metavar="NODE:INDEX:SUB", help="does not get that write; an old confirmation of it is on the way")
    p.add_argument("--reboot-at-read", nargs="*", default=[], metavar="NODE:K", help="falls over at the K-th upload behind a write, forgets all and boots again")
    p.add_argument("--error", nargs="*", default=[], metavar="NODE:CODE:REGISTER", help="tells this error by EMCY behind each boot-up (hexadecimal but for NODE)")
    p.add_argument("--foreign", default="", metavar="BYTES", help="an NMT command of another manager behind the first one")
    p.add_argument("--echo", action="store_true", help="the adapter gives back each frame that it sends")
    p.add_argument("--traffic", type=float, default=0, help="so many other frames a second")
    p.add_argument("--garbage", type=float, default=0, help="before so many of the lines (0 to 1) a line of garbage with a CR")
    p.add_argument("--noise", type=float, default=0, help="before so many of the lines a few bytes without CR: that line is lost")
    p.add_argument("--answers", choices=["z", "cr", "none"], default="z", help="how frames that are taken are answered")
    p.add_argument("--stamps", action="store_true", help="four digits of a clock behind each frame")
    p.add_argument("--long-stamps", action="store_true", help="eight digits of a clock behind each frame")
    p.add_argument("--line-feeds", action="store_true", help="the lines of frames end with CR LF")
    p.add_argument("--garbled", action="store_true", help="lines that are no frames come in place of frames")
    p.add_argument("--sends", nargs="*", default=[], metavar="ID", help="a frame of this identifier (hexadecimal) is on the bus each 10 ms")
    p.add_argument("--every", nargs="*", default=[], metavar="ID:S:BYTES", help="a frame of this identifier (hexadecimal) and so many bytes is on the bus each so many seconds")
    p.add_argument("--flags", default="00", help="the adapter's status flags, two digits")
    p.add_argument("--refuse", default="", metavar="LETTERS", help="the adapter refuses the commands of these letters")
    p.add_argument("--lower", action="store_true", help="hexadecimal digits in lower case")
    p.add_argument("--chunk", type=int, default=0, help="give the bytes in parts of at most so many")
    p.add_argument("--lenient", action="store_true", help="C is taken where nothing is open")
    p.add_argument("--no-stty", dest="stty", action="store_false", help="leave the terminal at min 1 time 0, for who sets it by stty")
    p.add_argument("--sessions", type=int, default=1, help="end once the adapter was closed so many times after it was open to send")
    p.add_argument("--has", nargs="*", default=[], metavar="NODE:INDEX:SUB:VALUE", help="has stored another value there than its EDS file says")
    p.add_argument("--holds", nargs="*", default=[], metavar="NODE:INDEX:SUB:COUNT", help="has a DOMAIN of so many bytes there, which can be written")
    p.add_argument("--name", nargs="*", default=[], metavar="NODE:TEXT", help="has this name at 1008h")
    p.add_argument("--bad-toggle", nargs="*", default=[], metavar="NODE:K", help="does not alternate the toggle bit in its K-th answer to a segment")
    p.add_argument("--hushed", nargs="*", default=[], metavar="NODE:K", help="does not answer the K-th segment")
    p.add_argument("--stay", action="store_true", help="go on after C")
    p.add_argument("--until", type=float, default=60, help="end after so many seconds")
    p.add_argument("--seed", type=int, default=1)
    p.add_argument("--log", help="a file for the frames (else standard error)")
    p.add_argument("--report", help="a file for the summary (else standard output)")
    return p.parse_args()


if __name__ == "__main__":
    sys.exit(Rig(words()).run())
