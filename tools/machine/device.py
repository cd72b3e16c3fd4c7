"""A simulated CANopen slave: NMT, boot-up, heartbeat, SDO server (expedited and segmented), with faults."""
import struct

RW = {"rw", "rww", "rwr", "wo"}
NAMES = {0x7F: "pre-operational", 0x05: "operational", 0x04: "stopped", 0x00: "initialising"}


class Device:
    def __init__(self, node, entries, now, send, faults, log):
        self.node, self.entries, self.send, self.faults, self.log = node, entries, send, faults, log
        self.state, self.writes, self.next_beat = 0x7F, [], None
        self.boot_at, self.boots, self.pending = None, 0, []
        self.upload = self.download = None
        self.resets = self.starts = self.reads = self.read_back = 0
        self.stored, self.restores, self.segments = None, False, 0
        if faults.get("running"):
            self.state, self.next_beat = 0x05, now

    # --- time -----------------------------------------------------------------
    def poll(self, now):
        if self.boot_at is not None and now >= self.boot_at:
            self.boot_at = None
            self.state, self.boots = 0x7F, self.boots + 1
            self.send(0x700 + self.node, b"\0")
            if "error" in self.faults:
                self.send(0x80 + self.node, struct.pack("<HB5x", *self.faults["error"]))
            self.arm(now)
        for due, ident, data in [p for p in self.pending if p[0] <= now]:
            self.send(ident, data)
        self.pending = [p for p in self.pending if p[0] > now]
        if self.next_beat is not None and now >= self.next_beat and self.boot_at is None:
            if not (self.faults.get("quiet") and self.state == 0x05):
                self.send(0x700 + self.node, bytes([self.state]))
            self.arm(now)
            if self.next_beat is None and self.faults.get("running"):
                self.next_beat = now + 0.5

    def arm(self, now):
        e = self.entries.get((0x1017, 0))
        self.next_beat = now + e.value / 1000 if e and e.value else None

    # --- frames ---------------------------------------------------------------
    def frame(self, ident, data, now):
        f = self.faults
        if ident == 0 and len(data) == 2 and data[1] in (0, self.node):
            self.command(data[0], now)
        elif ident == 0x600 + self.node and len(data) == 8 and not f.get("silent") and not f.get("mute"):
            if self.state in (0x7F, 0x05) and self.boot_at is None:
                answer = self.sdo(data, now)
                if answer:
                    lag = f.get("read_lag", f.get("lag", 0.0)) if data[0] >> 5 == 2 else f.get("lag", 0.0)
                    self.pending.append((now + lag, 0x580 + self.node, answer))

    def command(self, cs, now):
        if cs in (0x81, 0x82):
            self.resets += 1
            if cs == 0x81 and self.restores:
                self.stored, self.restores = None, False
            for key, e in self.entries.items():
                if cs == 0x81 or 0x1000 <= e.index <= 0x1FFF:
                    e.value = self.kept(key, e)
            self.upload = self.download = self.next_beat = None
            self.pending = []
            if not self.faults.get("silent"):
                self.boot_at = now + self.faults.get("late", 0.02)
        elif self.boot_at is None:
            self.starts += cs == 1
            self.state = {1: 0x05, 2: 0x04, 0x80: 0x7F}.get(cs, self.state)

    def kept(self, key, e):
        """The value that an object has after a reset: the one that was stored, or its default."""
        return e.default if self.stored is None else self.stored[key]

    # --- SDO server -------------------------------------------------------------
    def sdo(self, d, now):
        cs, index, sub = d[0] >> 5, d[1] | d[2] << 8, d[3]
        if cs == 4:
            self.log(f"node {self.node}: client aborts {index:04X}:{sub:02X} {struct.unpack('<I', d[4:])[0]:08X}")
            self.upload = self.download = None
            return None
        if cs == 1:
            return self.write_first(d, index, sub, now)
        if cs == 0 and self.download:
            return self.segment(self.write_more(d, now))
        if cs == 2:
            return self.read_first(index, sub, now)
        if cs == 3 and self.upload:
            return self.segment(self.read_more(d))
        return self.refuse(index, sub, 0x05040001)

    def segment(self, answer):
        """The answer to a segment, if it is given, and with its toggle bit."""
        self.segments += 1
        if self.segments == self.faults.get("hushed"):
            return None
        if self.segments == self.faults.get("bad_toggle") and answer[0] != 0x80:
            return bytes([answer[0] ^ 0x10]) + answer[1:]
        return answer

    def refuse(self, index, sub, code):
        self.upload = self.download = None
        return bytes([0x80, index & 255, index >> 8, sub]) + struct.pack("<I", code)

    def write_first(self, d, index, sub, now):
        expedited, sized = d[0] & 2, d[0] & 1
        if expedited:
            n = 4 - (d[0] >> 2 & 3) if sized else 4
            return self.store(index, sub, bytes(d[4:4 + n]), now)
        self.download = [index, sub, b"", 0]
        return bytes([0x60, index & 255, index >> 8, sub, 0, 0, 0, 0])

    def write_more(self, d, now):
        index, sub, sofar, toggle = self.download
        if d[0] >> 4 & 1 != toggle:
            return self.refuse(index, sub, 0x05030000)
        sofar += bytes(d[1:8 - (d[0] >> 1 & 7)])
        self.download = [index, sub, sofar, toggle ^ 1]
        if d[0] & 1:
            self.download = None
            answer = self.store(index, sub, sofar, now)
            if answer[0] == 0x80:
                return answer
        return bytes([0x20 | toggle << 4]) + bytes(7)

    def store(self, index, sub, data, now):
        code = 0 if self.faults.get("stores_nothing") else self.check(index, sub, data)
        if (index, sub) == (0x1010, 1):
            return self.save(data, code)
        if (index, sub) == (0x1011, 1):
            return self.load(data, code)
        self.writes.append((index, sub, data.hex(), code))
        if code:
            return self.refuse(index, sub, code)
        if not self.faults.get("stores_nothing") and (index, sub) not in self.faults.get("lost", ()):
            e = self.entries[index, sub]
            e.value = int.from_bytes(data, "little") if e.size else data
            if index == 0x1017:
                self.arm(now)
        after = self.faults.get("reboot")
        if after is not None and sum(1 for w in self.writes if not w[3]) == after:
            self.faults["reboot"] = self.faults.get("reboot_again")
            return self.fall_over(now)
        if self.faults.get("wrong_mux") == (index, sub):
            return bytes([0x60, index & 255, index >> 8, sub ^ 1, 0, 0, 0, 0])
        return bytes([0x60, index & 255, index >> 8, sub, 0, 0, 0, 0])

    def save(self, data, code):
        """Store parameters (CiA 301, object 1010h): the signature is wanted."""
        if data != b"save":
            code = code or 0x08000020
        if code:
            return self.refuse(0x1010, 1, code)
        self.stored = {key: e.value for key, e in self.entries.items()}
        return bytes([0x60, 0x10, 0x10, 1, 0, 0, 0, 0])

    def load(self, data, code):
        """Restore default parameters (CiA 301, object 1011h): the signature is wanted, and they count after a reset of the node."""
        if data != b"load":
            code = code or 0x08000020
        if code:
            return self.refuse(0x1011, 1, code)
        self.restores = True
        return bytes([0x60, 0x11, 0x10, 1, 0, 0, 0, 0])

    def fall_over(self, now):
        for key, x in self.entries.items():
            x.value = self.kept(key, x)
        self.boot_at = now + 0.01
        self.log(f"node {self.node}: falls over and boots again")
        return None

    def check(self, index, sub, data):
        refused = self.faults.get("abort", {}).get((index, sub))
        if refused is not None:
            return refused
        if not any(i == index for i, _ in self.entries):
            return 0x06020000
        e = self.entries.get((index, sub))
        if e is None:
            return 0x06090011
        if e.access not in RW:
            return 0x06010002
        if e.size is not None and len(data) != e.size:
            return 0x06070010
        value = int.from_bytes(data, "little")
        if sub == 1 and (0x1400 <= index <= 0x15FF or 0x1800 <= index <= 0x19FF):
            # bits 0 to 29 may not change while the PDO exists, also not as it is switched off (CiA 301, 7.5.2.36)
            if not e.value >> 31 and (e.value ^ value) & 0x3FFFFFFF:
                return 0x08000022
        return 0

    def read_first(self, index, sub, now):
        self.reads += 1
        self.read_back += bool(self.writes)
        if self.writes and self.read_back == self.faults.get("reboot_at_read"):
            return self.fall_over(now)
        refused = self.faults.get("unread", {}).get((index, sub))
        if refused is not None:
            return self.refuse(index, sub, refused)
        e = self.entries.get((index, sub))
        if e is None:
            return self.refuse(index, sub, 0x06090011 if any(i == index for i, _ in self.entries) else 0x06020000)
        if e.access == "wo":
            return self.refuse(index, sub, 0x06010001)
        data = e.bytes()
        head = bytes([index & 255, index >> 8, sub])
        if len(data) <= 4 and data:
            return bytes([0x43 | (4 - len(data)) << 2]) + head + data.ljust(4, b"\0")
        self.upload = [data, 0]
        return b"\x41" + head + struct.pack("<I", len(data))

    def read_more(self, d):
        data, toggle = self.upload
        if d[0] >> 4 & 1 != toggle:
            return self.refuse(0, 0, 0x05030000)
        part, rest = data[:7], data[7:]
        self.upload = [rest, toggle ^ 1] if rest else None
        return bytes([toggle << 4 | (7 - len(part)) << 1 | (0 if rest else 1)]) + part.ljust(7, b"\0")

    def told(self):
        return NAMES.get(self.state, hex(self.state))
