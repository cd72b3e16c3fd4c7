#!/usr/bin/env python3
"""Draws the report of each example in a browser, at the width of a desk and of a phone, light and dark, and prints it, to be looked at.

usage: tools/look_at_reports.py [--trace] FOLDER [PAGE..]    the pages and their pictures go into FOLDER, as valve-390-dark.png,
                                                             and on paper as valve.pdf;
                                                             where pages are given, these are drawn in place of the examples'
                                                             reports; with --trace these show the examples' runs, too,
                                                             or their traces where there is no run

A page that is wider than its window is told.

It needs headless Chromium (Debian's package `chromium`), which CHROMIUM names where it is none of the usual names.
"""
import html
import os
import re
import shutil
import subprocess
import sys

HERE = os.path.dirname(os.path.dirname(os.path.realpath(__file__)))
EXAMPLES = f"{HERE}/examples"
PROGRAM = os.environ.get("CANPLAN", f"{HERE}/bin/canplan")
NAMES = ("chromium", "chromium-browser", "google-chrome")
WIDTHS = (1280, 390)
SCHEMES = {"dark": 0, "light": 1}
# A window has a least width, a frame in it has none.
FRAMED = """<iframe id="it" style="width: {width}px; height: 800px; border: 0" srcdoc="{text}"></iframe>
<script>it.onload = () => {{
  const size = it.contentDocument.documentElement;
  document.title = `size ${{size.scrollWidth}} ${{size.scrollHeight}}`;
}}</script>"""


def browser():
    """The name of the browser."""
    for it in (os.environ.get("CHROMIUM"), *NAMES):
        if it and shutil.which(it):
            return it
    sys.exit("look_at_reports: no Chromium is found; CHROMIUM may name it")


def opened(page, width, height, *words):
    """What the browser prints of a page."""
    flags = ("--headless", "--no-sandbox", "--disable-gpu", "--hide-scrollbars", f"--window-size={width},{height}")
    return subprocess.run([browser(), *flags, *words, f"file://{page}"], capture_output=True, timeout=120).stdout


def size_of(page, width):
    """How wide and high a page is at a width."""
    framed = f"{page}.framed.html"
    with open(page, encoding="utf-8") as it:
        text = it.read()
    with open(framed, "w", encoding="utf-8") as it:
        it.write(FRAMED.format(width=width, text=html.escape(text)))
    said = opened(framed, 1280, 800, "--dump-dom").decode(errors="replace")
    os.remove(framed)
    found = re.search(r"<title>size (\d+) (\d+)", said)
    return (int(found.group(1)), int(found.group(2))) if found else (width, 4000)


def draw(page, folder):
    """A page on paper, and its pictures."""
    name = os.path.splitext(os.path.basename(page))[0]
    paper = f"{folder}/{name}.pdf"
    opened(page, WIDTHS[0], 800, "--no-pdf-header-footer", f"--print-to-pdf={paper}")
    print(paper if os.path.exists(paper) else f"not printed: {paper}")
    for width in WIDTHS:
        wide, height = size_of(page, width)
        if wide > width:
            print(f"too wide: {page} takes {wide} at {width}")
        for scheme, number in SCHEMES.items():
            picture = f"{folder}/{name}-{width}-{scheme}.png"
            opened(page, width, height, f"--blink-settings=preferredColorScheme={number}", f"--screenshot={picture}")
            print(picture if os.path.exists(picture) else f"not drawn: {picture}")


def networks():
    """The names of the example networks."""
    return sorted(it for it in os.listdir(EXAMPLES) if os.path.exists(f"{EXAMPLES}/{it}/nodes.csv"))


def reports(folder, with_trace):
    """The reports of the examples, made anew."""
    for name in networks():
        example, page = f"{EXAMPLES}/{name}", f"{folder}/{name}.html"
        traces = [it for it in (f"{example}/run.csv", f"{example}/trace.csv") if os.path.exists(it)]
        trace = ["--trace", traces[0]] if with_trace and traces else []
        subprocess.run([PROGRAM, "report", *trace, f"{example}/nodes.csv", f"{example}/pdos.csv", page], check=True)
        yield page


def main():
    words = [it for it in sys.argv[1:] if it != "--trace"]
    if not words:
        sys.exit(__doc__)
    folder = os.path.realpath(words[0])
    os.makedirs(folder, exist_ok=True)
    pages = [os.path.realpath(it) for it in words[1:]] or reports(folder, "--trace" in sys.argv)
    for page in pages:
        draw(page, folder)


main()
