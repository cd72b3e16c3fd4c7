#!/usr/bin/env python3
"""Compares calls on a network that is named by its two tables with those that name it by a project file, byte for byte.

    python3 tools/projects.py

Each call is made in two copies of a folder, by words and by a file that says the same, and both have to give the same status, standard
output, standard error and files. Project files that are refused have to end with status 3, their number and line, and no file that is
new; a rate or a choice beside a project file is a usage fault. A name that is absolute stays, and one that ends in .toml and is the
value of an option, or behind a command that takes no network, is no project file.
"""
import json
import os
import shutil
import subprocess
import sys
import tempfile

from files import bytes_of, status_of, write

HERE = os.path.dirname(os.path.dirname(os.path.realpath(__file__)))
PROGRAM = os.environ.get("CANPLAN", f"{HERE}/bin/canplan")
TABLES = 'nodes = "nodes.csv"\npdos = "pdos.csv"\n'
# What a project file says behind the tables, and the words that say the same.
SAID = (
    ("", []),
    ('choice = "order"\n', []),
    ('choice = "margin"\n', ["--margin"]),
    ("rates = [1000, 500]\n", ["--rates", "1000,500"]),
    ('choice = "margin"\nrates = [500]\n', ["--rates", "500", "--margin"]),
    ('setup = "settings.csv"\n', ["--setup", "net/settings.csv"]),
    ('rates = [500]\nsetup = "wrong.csv"\n', ["--setup", "net/wrong.csv", "--rates", "500"]),
)
# The words before a network, and those behind it.
CALLS = (
    (["plan"], ["out"]),
    (["plan", "--strict", "--explain"], ["out"]),
    (["plan"], ["out", "--json"]),
    (["plan", "--explain"], ["missing"]),
    (["check", "--explain"], ["net/refusals.csv"]),
    (["boot", "--seed", "1"], []),
    (["boot", "--explain", "--port", "no/port"], []),
    (["judge"], ["net/trace.csv"]),
    (["run", "--seed", "1", "--until", "200000"], ["ran.csv"]),
    (["report"], ["report.html"]),
    (["report", "--trace", "net/trace.csv"], ["report.html"]),
    (["export", "dbc"], ["plan.dbc"]),
    (["export", "cdcf"], ["out", "--manager", "5"]),
    (["watch", "--explain"], ["net/trace.csv"]),
    (["watch", "--channel", "x.toml"], ["no.log"]),
)
# The text of a project file that is refused, and its number and line.
REFUSED = (
    ("nodes = nodes.csv\n", "150 1"),
    (TABLES + 'pdos = "pdos.csv"\n', "150 3"),
    (TABLES.encode() + b'choice = "\xff"\n', "150 3"),
    ("", "151 0"),
    ('nodes = "nodes.csv"\n', "151 0"),
    (TABLES + "rate = [500]\n", "151 3"),
    (TABLES + "rates = 500\n", "151 3"),
    (TABLES + 'rates = ["500"]\n', "151 3"),
    (TABLES + "\n[frames]\n", "151 4"),
    ('nodes = 1\npdos = "pdos.csv"\n', "151 1"),
    (TABLES + "setup = true\n", "151 3"),
    (TABLES + 'setup = ""\n', "152 3"),
    (TABLES + "rates = []\n", "152 3"),
    (TABLES + "rates = [500, 501]\n", "152 3"),
    (TABLES + 'choice = "row"\n', "152 3"),
    ('nodes = ""\npdos = "pdos.csv"\n', "152 1"),
    ('nodes = "nodes.csv"\npdos = "--margin"\n', "152 2"),
    ('nodes = "nodes.csv"\npdos = "a\\nb"\n', "152 2"),
)
# Words that say what a project file says, too.
TWICE = (["--margin"], ["--rates", "500"], ["--rates=500"], ["--setup", "net/settings.csv"], ["--setup=net/settings.csv"])


def run(folder, *words):
    done = subprocess.run([PROGRAM, *words], capture_output=True, cwd=folder, stdin=subprocess.DEVNULL)
    return done.returncode, done.stdout, done.stderr


def files_of(folder):
    """The files below a folder but project files, by their names."""
    names = [os.path.join(at, name) for at, _, files in os.walk(folder) for name in files]
    return {os.path.relpath(name, folder): bytes_of(name) for name in names if not name.endswith(".toml")}


def fresh(folder, example):
    """A new folder with the files of an example in net/, and a folder for answers."""
    shutil.rmtree(folder, ignore_errors=True)
    os.makedirs(f"{folder}/out")
    shutil.copytree(f"{HERE}/examples/{example}", f"{folder}/net")
    for name, row in ("settings", "2000,1" if example == "drives" else ""), ("wrong", "1017,5"):
        node = 11 if example == "drives" else 5
        write(f"{folder}/net/{name}.csv", f"row,node,object,value\n{f'set,{node},{row}' if row else ''}\n".encode())
    return folder


def as_bytes(text):
    return text if isinstance(text, bytes) else text.encode()


def compared(work, example):
    """The calls that answer otherwise by a project file than by words."""
    faults = []
    for said, options in SAID:
        for before, behind in CALLS:
            words, project = fresh(f"{work}/words", example), fresh(f"{work}/project", example)
            write(f"{project}/net/net.toml", as_bytes(TABLES + said))
            wanted = run(words, *before, "net/nodes.csv", "net/pdos.csv", *options, *behind), files_of(words)
            found = run(project, *before, "net/net.toml", *behind), files_of(project)
            if wanted != found:
                faults.append(f"{example}: {' '.join(before)} net.toml {' '.join(behind)} with {said!r}: {found[0]}, by words {wanted[0]}")
    return faults


def refused(work):
    """The project files that are not refused as they have to be."""
    faults = []
    for text, place in REFUSED:
        folder = fresh(f"{work}/refused", "valve")
        write(f"{folder}/net/net.toml", as_bytes(text))
        before, line = files_of(folder), f"canplan: refused {place}\n".encode()
        if run(folder, "plan", "net/net.toml", "out") != (3, b"", line) or files_of(folder) != before:
            faults.append(f"{text!r} is not refused {place}")
        status, output, said = run(folder, "plan", "--explain", "net/net.toml", "out")
        if (status, output) != (3, b"") or not said.startswith(line + b"net/net.toml") or f"\nrule {place[:3]}: ".encode() not in said:
            faults.append(f"{text!r} with --explain says {said}")
        status, output, said = run(folder, "judge", "--json", "net/net.toml", "net/trace.csv")
        if (status, said) != (3, b"") or str(json.loads(output)).find(place[:3]) < 0:
            faults.append(f"{text!r} with --json says {output}")
    return faults


def told_twice(work):
    """The calls with a rate or a choice beside a project file that are no usage fault."""
    folder = fresh(f"{work}/twice", "valve")
    write(f"{folder}/net/net.toml", as_bytes(TABLES))
    faults = []
    for words in TWICE:
        for call in (["plan", *words, "net/net.toml", "out"], ["plan", "net/net.toml", "out", *words]):
            status, output, said = run(folder, *call)
            if (status, output) != (2, b"") or not said.startswith(b"canplan: usage\n") or os.listdir(f"{folder}/out"):
                faults.append(f"{' '.join(call)}: {status} {said}")
    return faults


def named(work):
    """What is wrong with names: of files that are not there, that are absolute, and of words that are no project file."""
    folder = fresh(f"{work}/named", "valve")
    write(f"{folder}/net/net.toml", as_bytes(f'nodes = "{folder}/net/nodes.csv"\npdos = "../net/pdos.csv"\n'))
    faults = []
    if run(folder, "plan", "net/net.toml", "out") != run(folder, "plan", "net/nodes.csv", "net/pdos.csv", "out"):
        faults.append("an absolute name is another file")
    if run(folder, "plan", "no.toml", "out") != (5, b"", b"canplan: file no.toml\n"):
        faults.append("a project file that is not there is no file fault")
    for call in (["plan", "-net.toml", "out"], ["plan", "--", "net/net.toml", "out"], ["export", "net/net.toml", "out"]):
        if run(folder, *call)[0] != 2:
            faults.append(f"{' '.join(call)} is no usage fault")
    if run(folder, "test", "--rate", "125", "no.toml") != (5, b"", b"canplan: file no.toml\n"):
        faults.append("a table of streams may not end in .toml")
    return faults


def main():
    with tempfile.TemporaryDirectory() as work:
        faults = [*compared(work, "valve"), *compared(work, "drives"), *refused(work), *told_twice(work), *named(work)]
    return status_of(faults)


if __name__ == "__main__":
    sys.exit(main())
