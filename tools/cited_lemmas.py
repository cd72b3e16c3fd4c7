#!/usr/bin/env python3
"""Lists the lemmas that a crate takes from the proofs of other crates, in its proofs and as hints to the prover in its code.

    tools/cited_lemmas.py [NAME ..]    for some crates, or for all

A line for each crate and file of lemmas: who cites, whose file, and the lemmas. The last line counts them.
"""
import os
import re
import sys

TOP = os.path.dirname(os.path.dirname(os.path.abspath(__file__)))
CITED = re.compile(r"use Rattle\.(cop_\w+)\.proofs\.([\w.]+?)\.\{([^}]*)\}")
HINT = re.compile(r"\b(cop_\w+)::proofs::([\w:]+?)::([\w-]+)\b(?!::)")


def texts(crate, folder, end):
    for at, _, names in os.walk(f"{TOP}/crates/{crate}/{folder}"):
        for name in names:
            if name.endswith(end):
                with open(f"{at}/{name}", encoding="utf-8") as it:
                    yield it.read()


def cited(crate):
    """The lemmas of other crates that a crate cites, by crate and file."""
    found = {}
    for text in texts(crate, "proofs", ".antt"):
        for other, module, names in CITED.findall(text):
            found.setdefault((other, module), set()).update(name.strip() for name in names.split(","))
    for text in texts(crate, "src", ".rt"):
        for other, module, name in HINT.findall(text):
            found.setdefault((other, module.replace("::", ".")), set()).add(name)
    return {(other, module): names for (other, module), names in found.items() if other != crate}


def main(wanted):
    with open(f"{TOP}/crates.txt", encoding="utf-8") as it:
        crates = [line.split(":")[0] for line in it if line.strip()]
    lemmas, uses = set(), 0
    for crate in crates:
        if wanted and crate not in wanted:
            continue
        for (other, module), names in sorted(cited(crate).items()):
            print(f"{crate} {other} {module}: {', '.join(sorted(names))}")
            lemmas |= {(other, module, name) for name in names}
            uses += len(names)
    print(f"{len(lemmas)} lemmas, cited {uses} times")
    return 0


if __name__ == "__main__":
    sys.exit(main(sys.argv[1:]))
