#!/usr/bin/env python3
"""Makes an adapter that speaks slcan of any CAN interface that python-can knows, for canplan's --port.

    python3 tools/slcan_bridge.py LINK INTERFACE CHANNEL BITRATE

LINK becomes a symbolic link to a pseudo terminal. INTERFACE, CHANNEL and BITRATE are those of python-can, such as `socketcan can0 500000` or
`pcan PCAN_USBBUS1 500000`. The rate is that of the interface: the command for another one is refused, and canplan sends nothing then. An interface that
listens only cannot be asked for here: after the command L no frame is sent, but the controller confirms what it hears. Error frames are told by the flags.
"""
import os
import sys
import termios
import threading
import tty

import can

RATES = {b"S0": 10000, b"S1": 20000, b"S2": 50000, b"S3": 100000, b"S4": 125000, b"S5": 250000, b"S6": 500000, b"S7": 800000, b"S8": 1000000}
YES, NO = b"\r", b"\a"


class Adapter:
    """A CAN interface behind lines of slcan: `write` takes what is said."""

    def __init__(self, bus, bitrate, write):
        self.bus, self.bitrate, self.write = bus, bitrate, write
        self.mode, self.errors, self.rest = None, 0, b""

    def take(self, data):
        """Takes bytes from canplan, and answers each line that ends among them."""
        *lines, self.rest = (self.rest + data).replace(b"\n", b"").split(b"\r")
        for line in lines:
            self.write(self.answer(line))

    def answer(self, line):
        letter = line[:1]
        if line in RATES:
            return YES if self.mode is None and RATES[line] == self.bitrate else NO
        if letter in (b"O", b"L"):
            was, self.mode, self.errors = self.mode, self.mode or letter, 0
            return YES if was is None else NO
        if letter == b"C":
            was, self.mode = self.mode, None
            return YES if was else NO
        if letter == b"F":
            return b"F%02X\r" % (0x80 if self.errors else 0) if self.mode else NO
        if letter == b"t":
            return self.send(line)
        return YES if letter in (b"", b"V", b"N", b"Z") else NO

    def send(self, line):
        try:
            count = int(line[4:5], 16)
            data = bytes.fromhex(line[5:].decode("ascii"))
            if self.mode != b"O" or len(data) != count:
                return NO
            self.bus.send(can.Message(arbitration_id=int(line[1:4], 16), data=data, is_extended_id=False))
            return b"z\r"
        except (ValueError, can.CanError):
            return NO

    def hear(self, message):
        """Takes a frame from the bus, or nothing."""
        if message is None or self.mode is None:
            return
        if message.is_error_frame:
            self.errors += 1
        elif not message.is_extended_id and not message.is_remote_frame:
            self.write(b"t%03X%X" % (message.arbitration_id, message.dlc) + message.data.hex().upper().encode() + b"\r")


def terminal(link):
    """A pseudo terminal whose reads give up after 0.1 s, as canplan needs it, with a link to its device file; its other end."""
    master, slave = os.openpty()
    tty.setraw(slave)
    mode = termios.tcgetattr(slave)
    mode[6][termios.VMIN], mode[6][termios.VTIME] = 0, 1
    termios.tcsetattr(slave, termios.TCSANOW, mode)
    if os.path.islink(link):
        os.remove(link)
    os.symlink(os.ttyname(slave), link)
    return master, slave


def run(link, bus, bitrate):
    """Passes on what comes from canplan and from the bus, until the terminal ends. The slave end stays open here, so canplan may come and go."""
    master, _slave = terminal(link)
    adapter = Adapter(bus, bitrate, lambda said: os.write(master, said))

    def from_bus():
        while True:
            adapter.hear(bus.recv(timeout=1))

    threading.Thread(target=from_bus, daemon=True).start()
    while True:
        adapter.take(os.read(master, 4096))


def main(words):
    if len(words) != 4:
        print(__doc__, file=sys.stderr)
        return 2
    link, interface, channel, bitrate = words
    with can.Bus(interface=interface, channel=channel, bitrate=int(bitrate)) as bus:
        try:
            run(link, bus, int(bitrate))
        except KeyboardInterrupt:
            os.remove(link)
    return 0


if __name__ == "__main__":
    sys.exit(main(sys.argv[1:]))
