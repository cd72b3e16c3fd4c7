#!/usr/bin/env python3
"""Boots the valve of the examples over a pseudo terminal, at whose other end stands python-can's own slcan bus (Debian: python3-can, python3-serial), and over
tools/slcan_bridge.py at python-can's virtual bus.

    /usr/bin/python3 tools/boot_with_python_can.py

python-can reads the lines that canplan writes as frames, and writes the node's frames as lines. The frames that it reads have to be the
reset, the question which COB-ID the node has, the reset, the settings of its DCF file, the requests of uploads by which they are read back and the start, and canplan has to tell
the node ready. At another rate than the bridge's nothing may be sent.
"""
import os
import subprocess
import sys
import tempfile
import threading
import time
import tty
import termios

import can

import slcan_bridge
from files import status_of

HERE = os.path.dirname(os.path.dirname(os.path.realpath(__file__)))
WANTED = [
    (0x000, "8200"),
    (0x605, "4000180100000000"),
    (0x000, "8200"),
    (0x605, "23001801850100c0"),
    (0x605, "2300180181010040"),
    (0x605, "2b17100064000000"),
    (0x605, "4000180200000000"),
    (0x605, "40001a0000000000"),
    (0x605, "40001a0100000000"),
    (0x605, "40001a0200000000"),
    (0x605, "4000180100000000"),
    (0x605, "4017100000000000"),
    (0x000, "0100"),
]


def terminal():
    """A pseudo terminal: its other end, and the name of its device file, which is set up as bin/canplan does."""
    master, slave = os.openpty()
    tty.setraw(slave)
    mode = termios.tcgetattr(slave)
    mode[6][termios.VMIN], mode[6][termios.VTIME] = 0, 1
    termios.tcsetattr(slave, termios.TCSANOW, mode)
    return master, slave, os.ttyname(slave)


def pass_on(source, target):
    """What comes from one end goes to the other."""
    try:
        while True:
            os.write(target, os.read(source, 4096))
    except OSError:
        pass


def serve(bus, seen, is_over):
    """Node 5: it boots up at a reset, confirms each setting, and tells what it has: at first what its EDS file says."""
    has = {
        b"\x00\x18\x01": [0x43, 0x00, 0x18, 0x01, 0x85, 0x01, 0x00, 0x40],
        b"\x00\x18\x02": [0x4F, 0x00, 0x18, 0x02, 0xFF, 0x00, 0x00, 0x00],
        b"\x00\x1a\x00": [0x4F, 0x00, 0x1A, 0x00, 0x02, 0x00, 0x00, 0x00],
        b"\x00\x1a\x01": [0x43, 0x00, 0x1A, 0x01, 0x20, 0x01, 0x00, 0x20],
        b"\x00\x1a\x02": [0x43, 0x00, 0x1A, 0x02, 0x20, 0x02, 0x00, 0x20],
    }
    while not is_over.is_set():
        frame = bus.recv(0.1)
        if frame is None:
            continue
        seen.append((frame.arbitration_id, bytes(frame.data).hex()))
        if frame.arbitration_id == 0 and frame.data[0] == 0x82:
            bus.send(can.Message(arbitration_id=0x705, data=[0], is_extended_id=False))
        elif frame.arbitration_id == 0x605 and frame.data[0] == 0x40:
            bus.send(can.Message(arbitration_id=0x585, data=has[bytes(frame.data[1:4])], is_extended_id=False))
        elif frame.arbitration_id == 0x605:
            has[bytes(frame.data[1:4])] = [0x40 | frame.data[0] & 0x0F, *frame.data[1:8]]
            bus.send(can.Message(arbitration_id=0x585, data=[0x60, *frame.data[1:4], 0, 0, 0, 0], is_extended_id=False))


def boot_over(port, bus, rates=()):
    """What the program answers, and the frames that node 5 heard on a bus."""
    seen, is_over = [], threading.Event()
    peer = threading.Thread(target=serve, args=(bus, seen, is_over))
    peer.start()
    program = os.environ.get("CANPLAN", f"{HERE}/bin/canplan")
    tables = [f"{HERE}/examples/valve/{file}" for file in ("nodes.csv", "pdos.csv")]
    it = subprocess.run([*program.split(), "boot", "--port", port, "--watch", "0", *rates, *tables], capture_output=True, text=True, timeout=600)
    time.sleep(0.3)
    is_over.set()
    peer.join()
    bus.shutdown()
    return it, seen


def over_slcan():
    """The boot at python-can's own slcan bus."""
    ours, _ours_slave, port = terminal()
    theirs, _theirs_slave, channel = terminal()
    for source, target in ((ours, theirs), (theirs, ours)):
        threading.Thread(target=pass_on, args=(source, target), daemon=True).start()
    bus = can.Bus(interface="slcan", channel=channel, bitrate=500000, sleep_after_open=0)
    time.sleep(0.2)
    return boot_over(port, bus)


def over_bridge(rates=()):
    """The boot over tools/slcan_bridge.py, at python-can's virtual bus."""
    channel = f"bus{len(rates)}"
    with tempfile.TemporaryDirectory() as folder:
        port = f"{folder}/port"
        near = can.Bus(interface="virtual", channel=channel)
        threading.Thread(target=slcan_bridge.run, args=(port, near, 500000), daemon=True).start()
        time.sleep(0.2)
        return boot_over(port, can.Bus(interface="virtual", channel=channel), rates)


def main():
    faults = []
    for name, (it, seen) in (("slcan", over_slcan()), ("bridge", over_bridge())):
        if it.returncode != 0 or it.stdout != "node 5 ready\nstarted\n" or seen != WANTED:
            faults.append(f"{name}: status {it.returncode}, says {it.stdout!r}, {it.stderr!r}, frames {seen}")
    it, seen = over_bridge(("--rates", "1000"))
    if it.returncode != 3 or "canplan: refused 104 0" not in it.stderr or seen:
        faults.append(f"another rate than the bridge's: status {it.returncode}, says {it.stdout!r}, {it.stderr!r}, frames {seen}")
    return status_of(faults)


if __name__ == "__main__":
    sys.exit(main())
