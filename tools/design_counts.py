#!/usr/bin/env python3
"""Counts, for docs/DESIGN-PASS.md, the places in crates/*/src that keep an older form, point by point.

    python3 tools/design_counts.py [COMMIT] [--list]

Without a commit it reads the files of the checkout. A place is one line that begins it: a loop, a test, a signature. With --list each place is printed."""
import re
import subprocess
import sys

listed = "--list" in sys.argv
given = [a for a in sys.argv[1:] if not a.startswith("--")]
commit = given[0] if given else None


def run(*words):
    return subprocess.run(words, capture_output=True, text=True, check=True).stdout


def files(pattern):
    if commit:
        names = run("git", "ls-tree", "-r", "--name-only", commit).split("\n")
    else:
        names = run("git", "ls-files").split("\n")
    return [n for n in names if re.fullmatch(pattern, n)]


def text(name):
    return run("git", "show", f"{commit}:{name}") if commit else open(name, encoding="utf-8").read()


sources = {n: text(n) for n in files(r"crates/[a-z_0-9]+/src/.*\.rt")}
# What is searched is code alone: comments and clauses are blanked, lines stay.
CLAUSE = re.compile(r"^\s*(ghost |requires|ensures)")


def code_of(source):
    out = []
    for line in source.split("\n"):
        if CLAUSE.match(line):
            out.append("")
        else:
            out.append(re.sub(r"//.*", "", line))
    return "\n".join(out)


codes = {n: code_of(s) for n, s in sources.items()}


def lines_with(pattern, texts=codes):
    found = []
    for name, source in sorted(texts.items()):
        for match in re.finditer(pattern, source, re.M):
            found.append((name, source.count("\n", 0, match.start()) + 1, match.group(0).strip().split("\n")[0][:90]))
    return found


def enums():
    found = []
    for name, source in sorted(codes.items()):
        for match in re.finditer(r"^\s*(?:pub )?enum (\w+)[^{]*\{(.*?)\n\}", source, re.M | re.S):
            variants = [v.strip() for v in re.findall(r"^\s*(\w+(?:\([^)]*\))?),", match.group(2), re.M)]
            bare = [v for v in variants if "(" not in v]
            # Option's shape: one bare case beside what holds a value; Result's: two cases that each hold a value.
            if (len(bare) == 1 and len(variants) > 1) or (not bare and len(variants) == 2):
                found.append((name, source.count("\n", 0, match.start()) + 1, "enum " + match.group(1)))
    return found


def flagged():
    found = []
    for name, source in sorted(codes.items()):
        for match in re.finditer(r"^(?:pub )?struct (\w+)[^;{]*\{(.*?)\n\}", source, re.M | re.S):
            if re.search(r":\s*bool,", match.group(2)):
                found.append((name, source.count("\n", 0, match.start()) + 1, "struct " + match.group(1)))
    return found


def bodies():
    """Functions by their shape: the text without the words that name types, sizes and constants."""
    shapes = {}
    for name, source in sorted(codes.items()):
        for match in re.finditer(r"^( *)(?:pub(?:\(crate\))? )?fn (\w+)(.*?)\n\1\}", source, re.M | re.S):
            body = match.group(0)
            if body.count("\n") < 3:
                continue
            shape = re.sub(r"\b(fn) \w+", r"\1", body)
            shape = re.sub(r"\b[ui](?:8|16|32|64|size)\b|\b\d[\d_]*\b|\b[A-Z][A-Z_0-9]+\b|\bpub(?:\(crate\))? ", "?", shape)
            shapes.setdefault(re.sub(r"\s+", " ", shape), []).append((name, source.count("\n", 0, match.start()) + 1, "fn " + match.group(2)))
    return [place for group in shapes.values() if len(group) > 1 for place in group]


COUNTING = r"^\s*(?:'\w+: )?(?:while .*\{|loop \{)$"
POINTS = [
    ("1 own enums of the shape of Option or Result", enums()),
    ("1 a flag beside a value", flagged()),
    ("1 an answer's number tested to tell a refusal", lines_with(r"^.*\.number (?:!=|==) (?:Answer::DONE|0)\b.*$")),
    ("1 refusals made of a number", lines_with(r"^.*(?:Answer|Outcome)::refused\w*\((?!\s*Cause|cause).*$|^.*rows::told\(\d.*$")),
    ("1 constants that number kinds", lines_with(r"^\s*pub const (?:[A-Z]+_)*[A-Z]+: (?:u32|usize) = \d+;$", {n: s for n, s in codes.items() if re.search(r"answer/|use_rows/|recording_rule/|functions\.rt", n)})),
    ("1 constants that number kinds, in programs", lines_with(r"^const (?:PART_OF_A_ROW|TOO_MANY_ROWS|SHORT_ROOM|GREAT_SPACE|BAD_ROWS): u32.*$")),
    ("1 an index that stands for none", lines_with(r"^\s*//.*(?:else the number|or the number of|else their number|else the text|or else the|is the number of rows|stands for (?:a line|none|a number|a signed)).*$", sources)),
    ("2 functions that differ only in a type, a size or a constant", bodies()),
    ("3 loops that are no for", lines_with(COUNTING)),
    ("4 conversions, orders and equalities by hand", lines_with(r"^\s*(?:pub(?:\(crate\))? )?fn (?:signed|unsigned|natural|narrow|sum|larger|smaller|same_\w+|first_with|end_with|raised|past|header|put_byte|byte|nothing_recorded|print_reason|bits|version_of|is_power\w*)\(.*$")),
    ("5 grid and table side by side", lines_with(r"\bgrid: u32,\s*(?:table|requests): &\[i32\]")),
    ("5 requests and offsets or places side by side", lines_with(r"\b(?:table|requests): &\[i32\],\s*(?:space: u32,\s*)?(?:offsets|places|order): &\[(?:i32|u64)\]")),
    ("5 text and place side by side", lines_with(r"\btext: &mut \[u8\],\s*at: usize")),
    ("6 a buffer with a length beside it", lines_with(r"^\s*(?:pub(?:\(crate\))? )?fn (?:read_full|no_\w+|dots|unwritten|words_of|bytes_of)\(.*$|^\s*let mut (?:placed|numbers) = .*$")),
    ("7 numbers that say which function to run", lines_with(r"^.*\bfunctions::[A-Z_]+.*$|^.*match (?:function|change % 3|number) .*$")),
]
if __name__ == "__main__":
    for title, places in POINTS:
        print(f"{len(places):4}  {title}")
        if listed:
            for name, line, what in places:
                print(f"          {name}:{line}  {what}")
    answers = [n for n in files(r"crates/.*/proofs/.*/(?:Answers|Invariants)\.antt")]
    print(f"{len(answers):4}  8 files of answers and invariants, {sum(text(n).count(chr(10)) for n in answers)} lines")
