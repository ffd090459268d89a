#!/usr/bin/env python3
"""Brought the repository's own names to today's spelling, once, after the kit's port.py: definitions and lemmas in snake case, a dash between two
names. tools/respell.tsv has a row for each name: as it was, as port.py left it, as it is.

usage: python3 tools/respell.py        at the top of the checkout

In crates/ it turns whole words of .antt and .rt files (of comments, only what stands in backticks), and in README.md and docs/ what stands in
backticks. Names of functions, of C and of files stay."""
import glob
import re

ROWS = [line.rstrip("\n").split("\t") for line in open("tools/respell.tsv", encoding="utf-8") if line.strip()]
CODE = {row[1]: row[2] for row in ROWS}
PAGES = {row[0]: row[2] for row in ROWS}
WORD = re.compile(r'[^\s(){}.;,@"«»`]+')
SPAN = re.compile(r"`[^`\n]+`")
COMMENT = {"antt": re.compile(r'(?:(?<=\s)|^)--.*|"(?:[^"\\\n]|\\.)*"', re.M), "rt": re.compile(r'//.*|"(?:[^"\\\n]|\\.)*"')}


def words(text, table):
    return WORD.sub(lambda m: table.get(m[0], m[0]), text)


def spans(text, table):
    return SPAN.sub(lambda m: words(m[0], table), text)


def code(text, comment):
    out, at = [], 0
    for m in comment.finditer(text):
        out += [words(text[at : m.start()], CODE), spans(m[0], CODE)]
        at = m.end()
    return "".join(out) + words(text[at:], CODE)


def turn(path, how):
    text = open(path, encoding="utf-8").read()
    new = how(text)
    if new != text:
        open(path, "w", encoding="utf-8").write(new)
        return 1
    return 0


if __name__ == "__main__":
    turned = 0
    for kind in COMMENT:
        for path in sorted(glob.glob("crates/**/*." + kind, recursive=True)):
            turned += turn(path, lambda text: code(text, COMMENT[kind]))
    for path in ["README.md", *sorted(glob.glob("docs/*.md"))]:
        turned += turn(path, lambda text: spans(text, PAGES))
    print(f"respell: {turned} files, {len(ROWS)} names")
