#!/usr/bin/env python3
"""Calls bin/canplan where the program is not built, beside an `rt` that only pretends to prove, and looks at what the launcher tells and sets up.

    tools/first_call.py

The launcher has to tell each crate when its proof begins, to keep what the prover says in a file, to say where that is if the build fails, and then to
run the program on the caller's words. It has to set up the line that `--port` names, whatever the command is.
"""
import os
import pty
import re
import shutil
import subprocess
import sys
import tempfile
import termios

from files import status_of

HERE = os.path.dirname(os.path.dirname(os.path.realpath(__file__)))
# A program that says its words, and what pretends to prove three crates, by the libraries that it makes or by lines, and to build it.
PROGRAM = r"""#!/bin/sh
echo "ran: $*"
"""
RT = r"""#!/bin/sh
[ "$1" = run ] || exit 2
echo "statements core: modules loaded=1 checked=0" >&2
case $PRETENDED in
libraries)
    for name in low middle high; do
        mkdir -p "../$name/out/rlib"
        sleep 2
        touch "../$name/out/rlib/stamp"
    done
    ;;
lines)
    for name in low middle high; do
        sleep 2
        echo "rt: $name proved" >&2
    done
    ;;
*)
    echo "fn low::first: not proved" >&2
    exit 1
    ;;
esac
sleep 2
cp "$TOLD" out/canplan
"""
CRATES = """# low is used by all
low:
middle: low csv
aside: low
high: low middle # and nothing else
canplan: high low
"""
TOLD = {
    "libraries": ["low, 1 of 4", "middle, 2 of 4", "high, 3 of 4", "canplan, 4 of 4"],
    "lines": ["middle, 2 of 4", "high, 3 of 4", "canplan, 4 of 4"],
    "nothing": [],
}


def write(file, text, mode=0o644):
    os.makedirs(os.path.dirname(file), exist_ok=True)
    with open(file, "w", encoding="utf-8") as it:
        it.write(text)
    os.chmod(file, mode)


def tree_in(folder):
    """Makes a tree with the launcher and crates that have no code."""
    os.makedirs(f"{folder}/bin")
    shutil.copy(f"{HERE}/bin/canplan", f"{folder}/bin/canplan")
    write(f"{folder}/path/rt", RT, 0o755)
    write(f"{folder}/program", PROGRAM, 0o755)
    write(f"{folder}/crates.txt", CRATES)
    write(f"{folder}/crates/canplan/stdin", "")


def called(folder, pretended, *words):
    settings = {**os.environ, "PATH": f"{folder}/path:{os.environ['PATH']}", "PRETENDED": pretended, "TOLD": f"{folder}/program"}
    return subprocess.run([f"{folder}/bin/canplan", *words], env=settings, cwd="/", capture_output=True, text=True, stdin=subprocess.DEVNULL)


def faults_of_build(pretended):
    """What is wrong with a first call, and with a second one."""
    with tempfile.TemporaryDirectory() as folder:
        folder = os.path.realpath(folder)
        tree_in(folder)
        first = called(folder, pretended, "plan", "a b")
        told = re.findall(r"^canplan: proving (.*), \d+ minutes$", first.stderr, re.M)
        if told != TOLD[pretended]:
            yield f"{pretended}: told are {told}"
        log = f"{folder}/crates/canplan/out/build.log"
        with open(log, encoding="utf-8") as it:
            if "statements core" not in it.read() or "statements core" in first.stderr and TOLD[pretended]:
                yield f"{pretended}: the prover's lines are not in the file alone"
        if not TOLD[pretended]:
            if first.returncode != 1 or "not proved" not in first.stderr or log not in first.stderr or first.stdout:
                yield f"{pretended}: a build that fails ends with {first}"
            return
        if first.returncode or first.stdout != "ran: plan a b\n":
            yield f"{pretended}: the program is not run: {first}"
        second = called(folder, "nothing", "plan")
        if (second.returncode, second.stdout, second.stderr) != (0, "ran: plan\n", ""):
            yield f"{pretended}: a second call: {second}"


def faults_of_lines():
    """What is wrong with how lines are set up."""
    with tempfile.TemporaryDirectory() as folder:
        tree_in(folder)
        write(f"{folder}/crates/canplan/out/canplan", PROGRAM, 0o755)
        for command in ("boot", "verify", "scan", "nmt", "read", "write"):
            for words in (["--port", None], ["--port=", None]):
                ends = pty.openpty()
                name = os.ttyname(ends[1])
                called(folder, "nothing", command, *([words[0], name] if words[0] == "--port" else [words[0] + name]))
                said = termios.tcgetattr(ends[1])
                if said[3] & (termios.ECHO | termios.ICANON) or said[6][termios.VMIN] != 0 or said[6][termios.VTIME] != 1:
                    yield f"{command} {words[0]}: the line is not set up"
                for end in ends:
                    os.close(end)


def main():
    faults = [fault for pretended in TOLD for fault in faults_of_build(pretended)]
    return status_of(faults + list(faults_of_lines()))


if __name__ == "__main__":
    sys.exit(main())
