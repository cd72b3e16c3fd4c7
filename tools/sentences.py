#!/usr/bin/env python3
"""Tells each sentence with more than 30 words, of the pages that people meet first and of the help of the command line.

    tools/sentences.py [PAGE ..]

Without pages it reads README.md, CONTRIBUTING.md, CHANGELOG.md, docs/manual/*.md, and the texts of crates/cop_cli_args/src. A heading, an item of
a list and a cell of a table are sentences of their own; in a help two blanks part cells. Blocks of code are left out, and a piece of code in
a line is one word. The status is 1 if a sentence is too long.
"""
import glob
import os
import re
import sys

HERE = os.path.dirname(os.path.dirname(os.path.realpath(__file__)))
MOST = 30
PAGES = ("README.md", "CONTRIBUTING.md", "CHANGELOG.md", "docs/manual/*.md")
HELP = "crates/cop_cli_args/src/*.rt"
# A piece of code, and a link or a picture, of which the words are read.
CODE = re.compile(r"(`+)(?!`).+?(?<!`)\1(?!`)")
LINK = re.compile(r"!?\[([^\]]*)\]\([^)]*\)")
ITEM = re.compile(r"^\s*(?:[-*+]|\d+\.)\s+")
END = re.compile(r"[.?!][)*_\"']*(?:\s+|$)")
# A text of the help: what stands in quotes behind its name, or by itself on an arm.
TEXT = re.compile(r'(?:help:|=>\s*\{?|ABOUT: &str =|AFTER: &str =)\s*"((?:[^"\\]|\\.)*)"')


def paragraphs(lines):
    """The paragraphs of a page, each with the number of its line, blocks of code left out."""
    kept, begun, is_fenced, is_code, is_blank = [], 0, False, False, True
    for number, line in enumerate([*lines, ""], 1):
        is_mark = line.lstrip().startswith("```")
        indent = len(line) - len(line.lstrip())
        is_code = bool(line.strip()) and indent >= 4 and (is_code or is_blank) or is_code and not line.strip()
        is_alone = line.startswith("#") or line.startswith("|") or ITEM.match(line) is not None
        if kept and (is_mark or is_code or is_alone or not line.strip()):
            yield begun, " ".join(kept)
            kept = []
        if line.startswith("|") and not is_fenced:
            yield from ((number, cell) for cell in re.sub(r"\\\||`[^`]*`", lambda it: it[0].replace("|", " "), line).strip().strip("|").split("|"))
        elif line.strip() and not (is_fenced or is_mark or is_code):
            begun = begun if kept else number
            kept.append(ITEM.sub("", line, count=1).strip("# "))
        is_fenced ^= is_mark
        is_blank = not line.strip()


def help_texts(text):
    """The texts of the help that a source has, a cell of a line each."""
    for found in TEXT.finditer(text):
        number = text.count("\n", 0, found.start(1)) + 1
        for further, line in enumerate(found[1].split("\n")):
            yield from ((number + further, cell) for cell in re.split(r"\s{2,}", line))


def sentences(text):
    """The sentences of a paragraph, each piece of code in them one word."""
    plain = CODE.sub("code", LINK.sub(r"\1", text))
    return [it.strip() for it in END.split(plain) if it.strip()]


def words_in(sentence):
    return [it for it in sentence.split() if re.search(r"\w", it)]


def read(file):
    with open(file, encoding="utf-8") as it:
        return it.read()


def main(named):
    pages = named or sorted(it for page in PAGES for it in glob.glob(f"{HERE}/{page}"))
    texts = [(file, paragraphs(read(file).splitlines())) for file in pages]
    texts += [(file, help_texts(read(file))) for file in ([] if named else sorted(glob.glob(f"{HERE}/{HELP}")))]
    counted, wrong = 0, 0
    for file, found in texts:
        for number, text in found:
            for sentence in sentences(text):
                counted += 1
                count = len(words_in(sentence))
                if count > MOST:
                    wrong += 1
                    print(f"{os.path.relpath(file, HERE)}:{number}: {count} words: {sentence}")
    print(f"{counted} sentences, {wrong} with more than {MOST} words")
    return 1 if wrong else 0


if __name__ == "__main__":
    sys.exit(main(sys.argv[1:]))
