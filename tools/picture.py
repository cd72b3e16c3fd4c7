#!/usr/bin/env python3
"""Compares docs/crane.svg, the picture on README, with that of the crane's report.

    tools/picture.py [--write]

With --write the file is written. The picture is the one of the page, with the page's light colours.
"""
import os
import re
import subprocess
import sys
import tempfile

HERE = os.path.dirname(os.path.dirname(os.path.realpath(__file__)))
PROGRAM = os.environ.get("CANPLAN", f"{HERE}/bin/canplan")
CRANE = f"{HERE}/examples/crane"
PICTURE = f"{HERE}/docs/crane.svg"
SVG = re.compile(r'<svg class="net" viewBox="(\S+) (\S+) (\S+) (\S+)"[^>]*>(.*?)</svg>', re.DOTALL)
COLOURS = re.compile(r"--(\w+): (#\w+)")
RULE = re.compile(r"([^{}]+)\{([^{}]*)\}")
# The classes of bars.
FILLED = (".track", ".ample", ".fair", ".little", ".nothing", ".missed")


def page():
    """The report of the crane."""
    with tempfile.TemporaryDirectory() as folder:
        out = f"{folder}/page.html"
        subprocess.run([PROGRAM, "report", f"{CRANE}/nodes.csv", f"{CRANE}/pdos.csv", out], check=True, stdout=subprocess.DEVNULL, stderr=subprocess.DEVNULL)
        with open(out, encoding="utf-8") as it:
            return it.read()


def picture_of(text):
    """The picture of a page as a file of its own."""
    found = SVG.search(text)
    style = text[: text.index("</style>")]
    colours = dict(COLOURS.findall(style[style.index(":root") : style.index("@media")]))
    rules = []
    for selectors, body in RULE.findall(style[: style.index("@media print")]):
        names = [it.strip() for it in selectors.split(",")]
        if "hover" not in selectors and any(it.startswith(".net ") or it in FILLED for it in names):
            rules.append(f"{', '.join(names)} {{{re.sub(r'var[(]--([a-z]+)[)]', lambda it: colours[it[1]], body)}}}")
    x, y, width, height = found.group(1, 2, 3, 4)
    shown = re.sub(r"</?a\b[^>]*>", "", found[5]).strip()
    style = "\n".join(["text { font: 13px system-ui, sans-serif; }", *rules])
    return f"""<svg xmlns="http://www.w3.org/2000/svg" class="net" viewBox="{x} {y} {width} {height}" role="img" aria-label="senders, identifiers and consumers of the crane">
<style>
{style}
</style>
<rect width="{width}" height="{height}" fill="{colours['card']}"/>
{shown}
</svg>
"""


def main(words):
    made = picture_of(page())
    if words == ["--write"]:
        with open(PICTURE, "w", encoding="utf-8") as out:
            out.write(made)
        return 0
    with open(PICTURE, encoding="utf-8") as it:
        is_same = it.read() == made
    print(f"docs/crane.svg is {'' if is_same else 'not '}the picture of the crane's report")
    return 0 if is_same else 1


if __name__ == "__main__":
    sys.exit(main(sys.argv[1:]))
