#!/usr/bin/env python3
"""Brings the definitions and lemmas of this repository to today's spelling: words in snake case, without dashes.

usage: python3 tools/respell.py ROOT [NAMES]

Run once, after the port.py of the kit. Names of the kit, and what a check names itself, stay. Where two names of one file would fall together, the lemma ends
in _lem and the case of an answer in _case. The map of names is read from ROOT's own crates, or from the file NAMES if it is given; it is written to
tools/names.txt where that file is not there yet.
"""

import collections
import glob
import os
import re
import sys

WORD = r"[A-Za-z_][\w'\-]*"
# A lemma beside the definition that it speaks of, and a case of an answer beside the answer's own number.
APART = {
    "write-of": "write_of_lem",
    "read-of": "read_of_lem",
    "number-of": "number_of_lem",
    "persistent-room": "persistent_room_lem",
    "temp-room": "temp_room_lem",
    "script-of": "script_of_lem",
    "larger-first": "larger_first_lem",
    "refused-text": "refused_text_lem",
    "element-bytes": "element_bytes_lem",
    "tail-by": "tail_by_lem",
    "total-used": "used_total",
    "good-size": "good_size_lem",
    "good-offset": "good_offset_lem",
    "temporaries-out": "temporaries_out_case",
    "bad-shape": "bad_shape_case",
    "too-early": "too_early_case",
    "out-of-limits": "out_of_limits_case",
    "bad-use": "bad_use_case",
    "off-grid": "off_grid_case",
    "bad-row": "bad_row_case",
}
# These have today's form already, and would fall together with a definition that gets it. They are turned in specs/ alone.
IN_SPECS = {"too_many": "too_many_case", "all_digits": "all_digits_lem"}


def logic_files(root):
    return sorted(glob.glob(f"{root}/crates/*/specs/**/*.antt", recursive=True) + glob.glob(f"{root}/crates/*/proofs/**/*.antt", recursive=True))


def without_comments(text):
    return re.sub(r"--.*", "", text)


def declared(root):
    """Returns the names that the repository's own files of logic declare or bind."""
    crates, kit, found = set(os.listdir(f"{root}/crates")), set(), set()
    for path in logic_files(root):
        text = without_comments(open(path, encoding="utf-8").read())
        for module, names in re.findall(r"use ([\w.'\-◌·]+)\.\{([^}]*)\}", text):
            own = module.startswith("Rattle.") and module.split(".")[1] in crates
            for name in names.split(","):
                parts = [it.strip() for it in name.split(" as ")]
                if not own:
                    kit.add(parts[0])
                if len(parts) == 2:
                    found.add(parts[1])
        body = "\n".join(it for it in text.split("\n") if not it.startswith("use "))
        found |= {it for it in re.findall(r"(?m)^\s*(?:(?:abbrev|unfoldable|pub|private|record|data)\s+)*(" + WORD + r")(?:\s+" + WORD + r")*\s*:(?!=)", body)}
        for pattern in [r"[({]((?:" + WORD + r"\s+)+): ", r"λ ((?:" + WORD + r"\s*)+)\.", r"(?m)^\s*(" + WORD + r"(?:\s+" + WORD + r")+)\s*="]:
            for names in re.findall(pattern, body):
                found |= set(names.split())
        found |= set(re.findall(r"\blet (" + WORD + r")\b", body)) | set(re.findall(r"[;{]\s*(" + WORD + r")\s*[:=]\s", body))
    return found - kit


def snake(word):
    return re.sub(r"([a-z0-9])([A-Z])", lambda at: at[1] + "_" + at[2].lower(), word.replace("-", "_"))


def names_of(root):
    names = {it: snake(it) for it in declared(root) if "-" in it.strip("-") or re.match(r"[a-z].*[A-Z]", it)}
    return names | {it: APART[it] for it in names if it in APART}


def turned(text, names):
    return re.sub(r"(?<![\w'\-])" + WORD, lambda at: names.get(at[0], at[0]), text)


def turned_source(text, names):
    """Turns what stands outside strings and comments, and in a comment what stands between backticks."""

    def turn(at):
        if at[0].startswith("//"):
            return re.sub(r"`[^`]*`", lambda it: turned(it[0], names), at[0])
        return at[0] if at[0].startswith('"') else turned(at[0], names)

    return re.sub(r'//[^\n]*|"(?:[^"\\\n]|\\.)*"|(?:(?!//|")[\s\S])+', turn, text)


def turned_logic(text, names):
    def turn(at):
        return re.sub(r"`[^`]*`", lambda it: turned(it[0], names), at[0]) if at[0].startswith("--") else turned(at[0], names)

    return re.sub(r"--[^\n]*|(?:(?!--)[\s\S])+", turn, text)


def main(root, file=None):
    if file:
        names = dict(it.split() for it in open(file, encoding="utf-8") if it.strip())
    else:
        names = names_of(root)
        where = os.path.join(os.path.dirname(os.path.realpath(__file__)), "names.txt")
        if not os.path.exists(where):
            with open(where, "w", encoding="utf-8") as it:
                it.writelines(f"{old} {new}\n" for old, new in sorted(names.items()))
    for path in logic_files(root):
        text = open(path, encoding="utf-8").read()
        new = turned_logic(text, names | (IN_SPECS if "/specs/" in path else {}))
        if new != text:
            open(path, "w", encoding="utf-8").write(new)
    for path in sorted(glob.glob(f"{root}/crates/*/src/**/*.rt", recursive=True)):
        text = open(path, encoding="utf-8").read()
        new = turned_source(text, names)
        if new != text:
            open(path, "w", encoding="utf-8").write(new)


if __name__ == "__main__":
    main(*sys.argv[1:])
