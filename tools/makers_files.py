#!/usr/bin/env python3
"""Brings EDS files as makers ship them to a plan, by the program alone, and looks at each answer on the way.

    python3 tools/makers_files.py
    python3 tools/makers_files.py bent COUNT

Each sample of crates/tidy_samples goes through `canplan tidy`: the text, the changes that are told and the status are as they are to be,
`--check` tells the same and writes nothing, and what was written is not changed once more. What was accepted is then planned as the only
device of a network, with its DCF file and its page: no plan ends in a refused EDS text. What is refused names a number that `explain`
knows. A folder is tried as a whole, too.

With `bent` lines of the samples are cut, doubled, moved and changed, by a seed that is always the same: each text is refused or accepted,
what was accepted is not changed once more, and no plan with it ends in a refused EDS text.
"""
import os
import random
import subprocess
import sys
import tempfile

from files import bytes_of, write

HERE = os.path.dirname(os.path.dirname(os.path.realpath(__file__)))
SAMPLES = f"{HERE}/crates/tidy_samples/data"
PROGRAM = os.environ.get("CANPLAN", f"{HERE}/bin/canplan")
NODES = b"row,node,name,eds,period,jitter\ndevice,5,Device,unit.eds,0,0\n"
PDOS = b"node,tpdo,period,jitter,deadline,consumers\n5,1,10000,0,10000,\n"


def run(*words):
    """Status, standard output and standard error. What hangs ends the script."""
    it = subprocess.run([PROGRAM, *words], capture_output=True, timeout=60)
    return it.returncode, it.stdout, it.stderr


def of_refused(name, words, said, out):
    """What is wrong where a sample is to be refused."""
    status, told, fault = said
    wanted = next(line for line in bytes_of(f"{SAMPLES}/../stdout").decode().splitlines() if line.startswith(f"{name}: "))
    place = wanted.partition(": ")[2]
    if (status, told, fault) != (3, b"", f"canplan: {place}\n".encode()) or os.path.exists(out):
        yield f"{name}: {said}, wanted {place}"
    number = place.split()[1]
    if run("explain", number)[0] != 0:
        yield f"{name}: {number} is not explained"
    told_why = run("tidy", "--explain", *words, f"{SAMPLES}/{name}/in.eds", out)[2]
    if f"\nrule {number}: ".encode() not in told_why:
        yield f"{name}: words of a refusal: {told_why}"


def of_plan(name, folder):
    """What is wrong with the plan of a network with this device alone."""
    write(f"{folder}/nodes.csv", NODES)
    write(f"{folder}/pdos.csv", PDOS)
    status, _, fault = run("plan", f"{folder}/nodes.csv", f"{folder}/pdos.csv", folder)
    if status != 0 or not os.path.exists(f"{folder}/node-005.dcf"):
        yield f"{name}: plan: {status} {fault}"
    if run("report", f"{folder}/nodes.csv", f"{folder}/pdos.csv", f"{folder}/page.html")[0] != 0:
        yield f"{name}: no page"


def warnings_in(told):
    """The lines of the warnings on a text, which are the same where it is read once more."""
    return b"".join(line for line in told.splitlines(True) if line.startswith(b"warning "))


def of_accepted(name, words, said, out):
    """What is wrong where a sample is to be accepted."""
    source = f"{SAMPLES}/{name}/in.eds"
    told = bytes_of(f"{SAMPLES}/{name}/told.txt")
    if said != (0, told, b"") or bytes_of(out) != bytes_of(f"{SAMPLES}/{name}/out.eds"):
        yield f"{name}: other answers: {said}"
    is_same = told.endswith(b"changes 0\n")
    if run("tidy", "--check", *words, source) != (0 if is_same else 3, told, b""):
        yield f"{name}: --check says something else"
    if run("tidy", "--check", *words, out) != (0, warnings_in(told) + b"changes 0\n", b""):
        yield f"{name}: it is changed once more"


def of_sample(name, words):
    with tempfile.TemporaryDirectory() as folder:
        out = f"{folder}/unit.eds"
        said = run("tidy", *words, f"{SAMPLES}/{name}/in.eds", out)
        if not os.path.exists(f"{SAMPLES}/{name}/out.eds"):
            yield from of_refused(name, words, said, out)
            return
        yield from of_accepted(name, words, said, out)
        yield from of_plan(name, folder)


def of_folder():
    """What is wrong with the answers to a folder, of which one file is refused at last, and to names that no table of nodes takes."""
    sample = f"{SAMPLES}/list-names-nothing"
    with tempfile.TemporaryDirectory() as folder:
        source, out = f"{folder}/in", f"{folder}/out"
        os.mkdir(source)
        os.mkdir(out)
        write(f"{source}/valve.eds", bytes_of(f"{sample}/in.eds"))
        write(f"{source}/readme.txt", b"of no concern")
        told = b"".join(b"valve.eds: " + line + b"\n" for line in bytes_of(f"{sample}/told.txt").splitlines())
        if run("tidy", source, out) != (0, told, b"") or os.listdir(out) != ["valve.eds"]:
            yield "a folder: other answers"
        elif bytes_of(f"{out}/valve.eds") != bytes_of(f"{sample}/out.eds"):
            yield "a folder: another text"
        os.remove(f"{out}/valve.eds")
        write(f"{source}/other.eds", bytes_of(f"{SAMPLES}/octal-asked/in.eds"))
        if run("tidy", source, out) != (3, told, b"canplan: refused 78 55 other.eds\n") or os.listdir(out):
            yield "a folder with a file that is refused: other answers"
        said = run("tidy", "--explain", f"{source}/other.eds", f"{out}/unit.eds")[2]
        if b"by CiA 306 (octal) and" not in said:
            yield f"octal or decimal: the meanings are not told: {said}"
        if run("tidy", f"{source}/valve.eds", f"{out}/v=lve.eds") != (2, b"", b"canplan: usage\n"):
            yield "a name that no table of nodes takes is taken"


CHOICES = [[], [], ["--decimal"], ["--octal"], ["--access", "rw"], ["--unlisted", "add"], ["--unlisted", "leave"], ["--rates", "125,250"]]
TAILS = [b" ; x", b" // y", b"\r", b"h", b'"', b"0"]
VALUES = [b"", b"FFh", b"0377", b"-1", b"$NODEID+0x180", b"true", b"99999999999", b"NODEID"]


def bend_line(lines, at, by):
    """Changes a line in one of some ways."""
    way = by.randrange(6)
    if way == 0:
        lines[at] += by.choice(TAILS)
    elif way == 1 and lines[at]:
        place = by.randrange(len(lines[at]))
        lines[at] = lines[at][:place] + bytes([by.randrange(256)]) + lines[at][place + 1:]
    elif way == 2:
        lines[at] = lines[at].replace(b"0x", by.choice([b"", b"$", b"0X", b"-0x"]))
    elif way == 3:
        lines[at] = lines[at].partition(b"=")[0] + b"=" + by.choice(VALUES)
    elif way == 4:
        lines.insert(at, by.choice(lines))
    elif len(lines) > 1:
        del lines[at]


def of_bent(folder, text, words):
    """What is wrong with the answers to a bent text."""
    source, out = f"{folder}/in.eds", f"{folder}/unit.eds"
    write(source, text)
    status, told, fault = run("tidy", *words, source, out)
    if status == 3:
        return
    if status != 0:
        yield f"{words}: {status} {fault}"
        return
    if run("tidy", "--check", *words, out) != (0, warnings_in(told) + b"changes 0\n", b""):
        yield f"{words}: it is changed once more"
    status, _, fault = run("plan", f"{folder}/nodes.csv", f"{folder}/pdos.csv", folder)
    if status not in (0, 3, 4) or fault.startswith(b"canplan: refused 43 "):
        yield f"{words}: plan: {status} {fault}"


def bend(count):
    """Tries so many bent texts. The first that is wrong is kept."""
    by = random.Random(1)
    samples = [bytes_of(f"{SAMPLES}/{line.split()[0]}/in.eds") for line in bytes_of(f"{SAMPLES}/list").decode().splitlines()]
    samples = [text for text in samples if len(text) < 20_000]
    with tempfile.TemporaryDirectory() as folder:
        write(f"{folder}/nodes.csv", NODES)
        write(f"{folder}/pdos.csv", PDOS)
        for _ in range(count):
            lines = by.choice(samples).split(b"\n")
            for _ in range(by.randint(1, 4)):
                bend_line(lines, by.randrange(len(lines)), by)
            text, words = b"\n".join(lines), by.choice(CHOICES)
            found = list(of_bent(folder, text, words))
            if found:
                write("bent.eds", text)
                return found
    return []


def main():
    if sys.argv[1:2] == ["bent"]:
        found = bend(int(sys.argv[2]))
        print("\n".join(found) or "all bent texts are refused, or as they are to be")
        return 1 if found else 0
    found = []
    for line in bytes_of(f"{SAMPLES}/list").decode().splitlines():
        name, _, word = line.partition(" ")
        found += of_sample(name, word.split())
    found += of_folder()
    for words in (["tidy", "x.eds"], ["tidy", "--octal", "--decimal", "x.eds", "y.eds"], ["tidy", "--check", "x.eds", "y.eds"]):
        if run(*words)[0] != 2:
            found.append(f"{words} is understood")
    print("\n".join(found) or "all samples as they are to be")
    return 1 if found else 0


if __name__ == "__main__":
    sys.exit(main())
