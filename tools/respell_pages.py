#!/usr/bin/env python3
"""Brings the names between backticks in the pages to the spelling that tools/respell.py gave them.

usage: python3 tools/respell_pages.py PAGE..

A name is turned where tools/names.txt has it, or where the crates have its form in snake case and not its old one.
"""

import glob
import os
import re
import sys

from respell import WORD, snake

HERE = os.path.dirname(os.path.realpath(__file__))


def main(*pages):
    names = dict(it.split() for it in open(f"{HERE}/names.txt", encoding="utf-8") if it.strip())
    known = set()
    for path in glob.glob(f"{HERE}/../crates/**/*", recursive=True):
        if path.endswith((".antt", ".rt")) and "/out/" not in path:
            known |= set(re.findall(WORD, open(path, encoding="utf-8").read()))
    known |= {os.path.basename(it).rsplit(".", 1)[0] for it in glob.glob(f"{HERE}/../crates/*/must-fail/*")}

    def turn(at):
        word = at[0]
        if word in names:
            return names[word]
        if word not in known and ("-" in word.strip("-") or re.match(r"[a-z].*[A-Z]", word)) and snake(word) in known:
            return snake(word)
        return word

    for page in pages:
        text = open(page, encoding="utf-8").read()
        new = re.sub(r"(?<!`)`[^`\n]+`(?!`)", lambda it: re.sub(r"(?<![\w'\-./])" + WORD + r"(?![\w/])", turn, it[0]), text)
        if new != text:
            open(page, "w", encoding="utf-8").write(new)


if __name__ == "__main__":
    main(*sys.argv[1:])
