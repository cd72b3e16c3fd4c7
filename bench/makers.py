#!/usr/bin/env python3
"""Writes EDS texts as makers might ship them, of three sizes each, and times `canplan tidy` on them.

    python3 bench/makers.py FOLDER                          writes the texts
    python3 bench/makers.py FOLDER PROGRAM [TURNS [WORD]]   and times PROGRAM on those with WORD in their names, TURNS times each (5)

Each run writes the same bytes. Of each text the least processor time (user and system) of its turns is printed, with its size and how many
changes were told. A program of its own is timed, and not bin/canplan, which looks first whether it has to be built.
"""
import os
import resource
import subprocess
import sys

SIZES = 1, 2, 4
DEVICE = "[DeviceInfo]\r\nVendorName=A maker\r\nBaudRate_125=1\r\nBaudRate_500=1\r\nNrOfRXPDO=0\r\nNrOfTXPDO=0\r\n\r\n"
TYPE = "[1000]\r\nParameterName=Device type\r\nObjectType=0x7\r\nDataType=0x0007\r\nAccessType=ro\r\nDefaultValue=0x0\r\nPDOMapping=0\r\n\r\n"
OBJECT = (
    "[{0:X}]\r\nParameterName=Parameter {0:X}h of the maker\r\nObjectType=0x7\r\nDataType={1}\r\nAccessType={2}\r\n"
    "LowLimit=0\r\nHighLimit=0x7FFF\r\nDefaultValue={3}\r\nPDOMapping=0\r\n\r\n"
)


def listed(name, entries):
    """A list of objects."""
    lines = "".join(f"{place}={entry}\r\n" for place, entry in enumerate(entries, 1))
    return f"[{name}]\r\nSupportedObjects={len(entries)}\r\n{lines}\r\n"


def text_of(entries, rest, before=""):
    """A text with these objects of the maker in its list, and this behind it."""
    return before + DEVICE + listed("MandatoryObjects", ["0x1000"]) + TYPE + listed("ManufacturerObjects", entries) + rest


def objects(count, data_type, access, default):
    """A text with so many objects of the maker."""
    indexes = range(0x2000, 0x2000 + count)
    return text_of([f"0x{index:X}" for index in indexes], "".join(OBJECT.format(index, data_type, access, default) for index in indexes))


def texts():
    """The name of each text, and the text."""
    for size in SIZES:
        yield f"as-standard-{3500 * size}", objects(3500 * size, "0x0006", "rw", "0x64")
        yield f"three-values-{3500 * size}", objects(3500 * size, "UNSIGNED16", "read/write", "64h")
        yield f"names-nothing-{35000 * size}", text_of([f"0x{0x2000 + place % 0x4000:X}" for place in range(35000 * size)], "")
        yield f"one-key-{40000 * size}", text_of([], "[2000]\r\n" + "ParameterName=a\r\n" * (40000 * size))
        yield f"one-section-{30000 * size}", text_of([], "[2000]\r\nDenotation=a\r\n" * (30000 * size))
        yield f"hash-lines-{60000 * size}", text_of([], "", "# a comment\r\n" * (60000 * size))


def write_all(folder):
    """Writes the texts, and answers for their names."""
    os.makedirs(folder, exist_ok=True)
    names = []
    for name, text in texts():
        with open(f"{folder}/{name}.eds", "wb") as it:
            it.write(text.encode())
        names.append(name)
    return names


def seconds():
    """Processor time of the programs that ended so far."""
    used = resource.getrusage(resource.RUSAGE_CHILDREN)
    return used.ru_utime + used.ru_stime


def timed(program, folder, name):
    """The processor time of one run, and the last line that it wrote."""
    before = seconds()
    ran = subprocess.run([program, "tidy", f"{folder}/{name}.eds", f"{folder}/{name}.out"], capture_output=True)
    said = (ran.stdout or ran.stderr).decode(errors="replace").splitlines() or [f"status {ran.returncode}"]
    return seconds() - before, said[-1]


def main(words):
    folder = words[0]
    names = write_all(folder)
    if len(words) == 1:
        return 0
    turns = int(words[2]) if len(words) > 2 else 5
    wanted = words[3] if len(words) > 3 else ""
    for name in names:
        if wanted not in name:
            continue
        runs = [timed(words[1], folder, name) for _ in range(turns)]
        size = os.path.getsize(f"{folder}/{name}.eds")
        print(f"{name:22} {size / 1e6:5.2f} MB  {min(it[0] for it in runs):6.3f} s  {runs[0][1]}", flush=True)
    return 0


if __name__ == "__main__":
    if len(sys.argv) < 2:
        sys.exit(__doc__)
    sys.exit(main(sys.argv[1:]))
