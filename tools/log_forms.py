"""Logs in the forms that canplan reads, beside that of `candump -L`.

Vector's .asc, PEAK's .trc of the versions 2.1 and 1.0, and the form of `candump -L` are written by python-can's own writers (Debian:
python3-can); columns of candump, .asc with other bases and stamps, and .trc of the versions 1.1 and 2.0 as their makers describe them.
A frame is its microsecond, its identifier, its data as hexadecimal digits, and what it is: data, long (29 bits), remote or error.
"""
import collections
import os
import tempfile

import can

Frame = collections.namedtuple("Frame", "at number body kind", defaults=("data",))


def messages(frames):
    for frame in frames:
        data = bytes.fromhex(frame.body)
        yield can.Message(timestamp=frame.at / 1000000, arbitration_id=frame.number, is_extended_id=frame.kind == "long",
                          is_remote_frame=frame.kind == "remote", is_error_frame=frame.kind == "error",
                          dlc=len(data), data=None if frame.kind in ("remote", "error") else data)


def written(writer, suffix, frames, version=None):
    """The lines of a log that a writer of python-can makes."""
    path = tempfile.mktemp(suffix)
    log = writer(path)
    if version is not None:
        log.file_version = version
    for message in messages(frames):
        log.on_message_received(message)
    log.stop()
    with open(path, newline="") as file:
        text = file.read()
    os.unlink(path)
    return text


def pairs(body):
    return " ".join(body[k:k + 2] for k in range(0, len(body), 2))


def canutils(frames):
    return written(can.CanutilsLogWriter, ".log", frames), 0


def asc(frames):
    text = written(can.ASCWriter, ".asc", frames)
    return text, len(text.splitlines()) - len(frames) - 1


def trc_2_1(frames):
    text = written(can.TRCWriter, ".trc", frames)
    return text, len(text.splitlines()) - len(frames)


def trc_1_0(frames):
    text = written(can.TRCWriter, ".trc", frames, can.io.trc.TRCFileVersion.V1_0)
    return text, len(text.splitlines()) - len(frames)


def column(frame, stamp, flags, characters):
    """A line as can-utils write it: an identifier of 11 bits is indented by five blanks with some options, and by none with others."""
    number = f"{frame.number | (0x20000000 if frame.kind == 'error' else 0):0{8 if frame.kind in ('long', 'error') else 3}X}"
    line = f" {stamp}  can0{flags}  {number}   [{len(frame.body) // 2}] "
    if frame.kind == "remote":
        return line + " remote request"
    line += f" {pairs(frame.body)}" if frame.body else ""
    if frame.kind == "error":
        return line + " " * (3 * (8 - len(frame.body) // 2) + 3) + "ERRORFRAME"
    if characters:
        data = bytes.fromhex(frame.body)
        line += " " * (3 * (8 - len(data)) + 3) + "'" + "".join(chr(byte) if 0x1F < byte < 0x7F else "." for byte in data) + "'"
    return line


def absolute(at):
    return f"({at // 1000000:010d}.{at % 1000000:06d})"


def relative(at):
    return f"({at // 1000000:03d}.{at % 1000000:06d})"


def columns(frames):
    """candump -ta -x -a"""
    return "".join(column(frame, absolute(frame.at), "  RX - -", True) + "\n" for frame in frames), 0


def columns_from_zero(frames):
    """candump -tz"""
    return "".join(column(frame, relative(frame.at - frames[0].at), "", False) + "\n" for frame in frames), 0


def distances(frames):
    """candump -td"""
    before = [frames[0]] + list(frames)
    return "".join(column(frame, relative(frame.at - last.at), "", False) + "\n" for last, frame in zip(before, frames)), 0


def asc_relative(frames):
    """Vector's form with decimal numbers, and stamps that are distances, as CANalyzer can be asked to write them."""
    text = "date Thu Nov 26 10:14:44 pm 2026\r\nbase dec  timestamps relative\r\nno internal events logged\r\n// version 9.0.0\r\n\r\n"
    for last, frame in zip([frames[0]] + list(frames), frames):
        away = frame.at - last.at
        name = f"{frame.number}{'x' if frame.kind == 'long' else ''}"
        line = f"{away // 1000000:4d}.{away % 1000000:06d} 1  "
        if frame.kind == "error":
            line += "ErrorFrame"
        elif frame.kind == "remote":
            line += f"{name:15} Rx   r"
        else:
            data = " ".join(f"{byte:3d}" for byte in bytes.fromhex(frame.body))
            line += f"{name:15} Rx   d {len(frame.body) // 2} {data}  Length = 224000 BitCount = 115 ID = {frame.number}"
        text += line + "\r\n"
    return text, 5


def peak_number(frame):
    return f"{frame.number:0{8 if frame.kind == 'long' else 4}X}"


def trc_1_1(frames):
    text = ";$FILEVERSION=1.1\r\n;$STARTTIME=37704.5364870833\r\n;\r\n;---+--   ----+----  --+--  ----+---  +  -+ -- -- -- -- -- -- --\r\n"
    for count, frame in enumerate(frames, 1):
        since = frame.at - frames[0].at
        line = f"{count:6d})  {since // 1000:8d}.{since % 1000:03d}  "
        if frame.kind == "error":
            line += "Error      0008  4  00 00 00 00"
        else:
            data = "RTR" if frame.kind == "remote" else pairs(frame.body)
            line += f"Rx     {peak_number(frame):>8}  {len(frame.body) // 2}  {data} "
        text += line + "\r\n"
    return text, 4


def trc_2_0(frames):
    text = ";$FILEVERSION=2.0\r\n;$STARTTIME=43008.5364870833\r\n;$COLUMNS=N,O,T,I,d,l,D\r\n;\r\n"
    for count, frame in enumerate(frames, 1):
        since = frame.at - frames[0].at
        kind = {"remote": "RR", "error": "ER"}.get(frame.kind, "DT")
        number = "-" if frame.kind == "error" else peak_number(frame)
        data = "" if frame.kind == "remote" else pairs(frame.body)
        text += f"{count:7d} {since // 1000:9d}.{since % 1000:03d} {kind} {number:>8} Rx {len(frame.body) // 2:<2} {data} \r\n"
    return text, 4


# Each form: its writer, by how many microseconds its own stamps are rounded, and the words that it wants; and what its writer cannot write.
FORMS = {
    "candump -L": (canutils, 2, (), ()),
    "columns": (columns, 0, (), ()),
    "columns from zero": (columns_from_zero, 0, (), ()),
    "distances": (distances, 0, ("--delta",), ()),
    "asc": (asc, 2, (), ()),
    "asc, decimal and relative": (asc_relative, 0, (), ()),
    "trc 1.0": (trc_1_0, 1000, (), ("remote", "error", "twice")),
    "trc 1.1": (trc_1_1, 0, (), ()),
    "trc 2.0": (trc_2_0, 0, (), ()),
    "trc 2.1": (trc_2_1, 2, (), ("remote", "error")),
}
