#!/usr/bin/env python3
"""Moves the theorems of specs/ to proofs/ in the crates whose definitions have must-fail edits: there an edit of a definition is refused by a theorem, which
reads as a bad edit while other theorems of specs/ rest on that one. Definitions stay; statements and proofs are moved as they are.

usage: python3 tools/split.py ROOT [CRATE ..]     (no CRATE: each that has an edit of a file of specs/)

Run once, after tools/respell.py. It prints what it could not part.
"""

import collections
import glob
import os
import re
import sys

WORD = r"[A-Za-z_][\w'\-]*"
MARKED = re.compile(r"\s*(?:pub\s+)?(?:abbrev|unfoldable|record|data|infix|infixl|infixr|prefix|postfix|syntax|ruleset)\b")
NAMED = re.compile(r"\s*(?:(?:abbrev|unfoldable|pub|record|data|ruleset)\s+)*([^\s:({]+)")


class Item:
    def __init__(self, lines):
        self.lines = lines
        head = next(it for it in lines if it.strip() and not it.lstrip().startswith("--"))
        self.head = head
        self.module = bool(re.match(r"\s*module\b", head))
        self.marked = bool(MARKED.match(head))
        self.pub = bool(re.search(r"\bpub\b", head.split(":")[0]))
        self.name = None if self.module else NAMED.match(head)[1]
        if re.match(r"\s*(infix\w?)\b", head):
            self.name = head.split()[-1]
        self.names = {self.name}
        if self.module:
            at = lines.index(head)
            while not lines[at].rstrip().endswith("where"):
                at += 1
            body = items_of([it[2:] if it.startswith("  ") else it for it in lines[at + 1 :]])
            self.parts = body
            self.names = set().union(*[it.names for it in body]) if body else set()
        if re.match(r"\s*(pub )?data\b", head):
            for it in lines[lines.index(head) + 1 :]:
                at = re.match(r"\s+(" + WORD + r")\s*:", it)
                if at:
                    self.names.add(at[1])
        self.theorem = (any(it.theorem for it in self.parts)) if self.module else not self.marked

    def text(self):
        return "\n".join(self.lines)

    def words(self):
        return set(re.findall(r"(?<![\w'\-])" + WORD, re.sub(r"--.*", "", self.text()))) | {f"◌{it}◌" for it in re.findall(r"\S+", re.sub(r"--.*", "", self.text()))}


def items_of(lines):
    """Parts lines at each declaration that begins at the left edge. Clauses, `unfolding` and `where` go with the signature above them; comments with what follows."""
    items, now, known = [], [], None

    def done():
        nonlocal now
        if any(it.strip() and not it.lstrip().startswith("--") for it in now):
            items.append(now)
            now = []

    for at, line in enumerate(lines):
        left = line[:1] not in ("", " ")
        if left and line.startswith("--"):
            # a comment: it begins the next item, unless a clause of this one follows
            rest = next((it for it in lines[at:] if it.strip() and not it.startswith("--")), "")
            first = re.match(r"(\S+)", rest)
            if not (first and known and first[1] == known and not re.match(r"\S+ :", rest)) and any(it.strip() and not it.startswith("--") for it in now):
                done()
            now.append(line)
            continue
        if left:
            declares = MARKED.match(line) or re.match(r"module\b", line) or re.match(r"(pub )?[^\s]+ (\{[^}]*\} )*:( |$)", line) or line.startswith("pub ")
            operator = known.strip("◌") if known and known.startswith("◌") else None
            clause = known and not MARKED.match(line) and not re.match(r"module\b", line) and not line.startswith("pub ") and not re.match(re.escape(known) + r" :", line) and (line.split()[0] == known or line.startswith("unfolding ") or operator in line.split("=")[0].split())
            if declares and not clause or re.match(r"infix", line):
                done()
                known = NAMED.match(line)[1] if not re.match(r"module\b|infix", line) else None
            now.append(line)
            continue
        now.append(line)
    done()
    if now and items:
        items[-1] += now
    return [Item(it) for it in items]


def parsed(path):
    lines = open(path, encoding="utf-8").read().rstrip("\n").split("\n")
    at = 0
    while at < len(lines) and (lines[at].startswith(("--", "use ")) or not lines[at].strip()):
        at += 1
    # comments right above the first item are its own, but for the file's own comment at the top
    while at and lines[at - 1].startswith("--") and any(it.startswith("use ") for it in lines[:at]):
        at -= 1
    head = lines[:at]
    comment = []
    for it in head:
        if it.startswith("use "):
            break
        comment.append(it)
    uses = [it for it in head if it.startswith("use ")]
    rest = lines[at:]
    return comment, uses, items_of(rest)


def used(line, words):
    """A line of imports, with the names alone that stand in the text."""
    at = re.match(r"use ([\w.'\-]+)\.\{(.*)\}$", line)
    if not at:
        alias = re.match(r"use [\w.'\-]+ as (\w+)$", line)
        return line if not alias or alias[1] in words else None
    names = [it.strip() for it in at[2].split(",")]
    keep = [it for it in names if not re.fullmatch(WORD, it.split(" as ")[-1]) or it.split(" as ")[-1] in words]
    return f"use {at[1]}.{{{', '.join(keep)}}}" if keep else None


def file_text(comment, uses, items):
    words = set().union(*[it.words() for it in items]) if items else set()
    lines = [it for it in (used(u, words) for u in uses) if it]
    body = "\n".join(it.text().strip("\n") if n == 0 else it.text().rstrip("\n") for n, it in enumerate(items))
    gaps = "\n\n".join(it.text().strip("\n") for it in items)
    return "\n".join([*comment, *lines]) + "\n\n" + gaps + "\n"


def split(root, crates):
    where = {}
    for crate in crates:
        specs, proofs = f"{root}/crates/{crate}/specs", f"{root}/crates/{crate}/proofs"
        files = {os.path.basename(it)[:-5]: parsed(it) for it in sorted(glob.glob(f"{specs}/*.antt")) if not it.endswith("/Lib.antt")}
        everything = [(name, it) for name, (_, _, items) in files.items() for it in items]
        moves = {id(it) for _, it in everything if it.theorem}
        # A definition that is not public and that theorems alone speak of goes with them.
        for name, (_, _, items) in files.items():
            for it in items:
                if id(it) not in moves and not it.module and not it.pub and it.name:
                    stays = [o for o in items if id(o) not in moves and o is not it]
                    if not any(it.names & o.words() for o in stays):
                        moves.add(id(it))
        # One that stays is named by no definition's text, or it has to be looked at.
        for name, it in everything:
            if id(it) in moves:
                for other, o in everything:
                    if id(o) not in moves and other == name and it.names & (o.words()):
                        print(f"look: {crate}/{name}: {o.name} stays and may name {sorted(it.names & o.words())[:5]}, which moves")
        moved = []
        for name, (comment, uses, items) in files.items():
            go, stay = [it for it in items if id(it) in moves], [it for it in items if id(it) not in moves]
            for it in go:
                for n in it.names:
                    where[crate, name, n] = "proofs"
            for it in stay:
                for n in it.names:
                    where[crate, name, n] = "specs"
            if not go:
                continue
            moved.append((name, bool(stay)))
            os.makedirs(proofs, exist_ok=True)
            mine = [it for it in stay if set().union(*[o.words() for o in go]) & it.names]
            for it in mine:
                if not it.module and not it.pub and not re.match(r"infix", it.head):
                    at = it.lines.index(it.head)
                    it.lines[at] = re.sub(r"^(abbrev |unfoldable )?", lambda m: (m[1] or "") + "pub ", it.head)
                    print(f"look: {crate}/{name}: {it.name} becomes public")
            names = sorted({n for it in mine for n in it.names if n})
            imports = [f"use Rattle.{crate}.specs.{name}.{{{', '.join(names)}}}"] if names else []
            target = f"{proofs}/{name}.antt"
            if os.path.exists(target):
                print(f"look: {crate}: proofs/{name}.antt is there already")
                continue
            if stay:
                open(f"{specs}/{name}.antt", "w", encoding="utf-8").write(file_text(comment, uses, stay))
                open(target, "w", encoding="utf-8").write(file_text([f"-- Laws of the definitions of specs/{name}.antt."], uses + imports, go))
            else:
                text = open(f"{specs}/{name}.antt", encoding="utf-8").read()
                os.remove(f"{specs}/{name}.antt")
                open(target, "w", encoding="utf-8").write(text)
        lib = open(f"{specs}/Lib.antt", encoding="utf-8").read()
        for name, stays in moved:
            if not stays:
                lib = re.sub(rf"(?m)^(pub )?mod {name}\n", "", lib)
        open(f"{specs}/Lib.antt", "w", encoding="utf-8").write(lib)
        path = f"{proofs}/Lib.antt"
        old = open(path, encoding="utf-8").read() if os.path.exists(path) else ""
        if moved:
            open(path, "w", encoding="utf-8").write(old + "".join(f"pub mod {name}\n" for name, _ in moved))
    return where


def relink(root, where):
    """Turns each import of a name that was moved."""
    modules = {(c, m) for c, m, _ in where}
    for path in sorted(glob.glob(f"{root}/crates/*/**/*.antt", recursive=True) + glob.glob(f"{root}/crates/*/src/**/*.rt", recursive=True)):
        if "/out/" in path:
            continue
        text = open(path, encoding="utf-8").read()

        def turn(at):
            lead, crate, module, names = at[1], at[2], at[3], [it.strip() for it in at[4].split(",")]
            if (crate, module) not in modules:
                return at[0]
            parts = {"specs": [], "proofs": []}
            for it in names:
                parts[where.get((crate, module, it.split(" as ")[0]), "specs")].append(it)
            if parts["proofs"] and path.endswith(".rt"):
                print(f"look: {path} names {parts['proofs']} of {module}, which moved")
            end = ";" if at[0].endswith(";") else ""
            return "\n".join(f"{lead}use Rattle.{crate}.{part}.{module}.{{{', '.join(its)}}}{end}" for part, its in parts.items() if its)

        new = re.sub(r"(?m)^((?:ghost )?)use Rattle\.(\w+)\.specs\.(\w+)\.\{([^}]*)\};?", turn, text)
        for crate, module, alias in re.findall(r"(?m)^(?:ghost )?use Rattle\.(\w+)\.specs\.(\w+) as (\w+)", text):
            gone = {n for (c, m, n), p in where.items() if (c, m) == (crate, module) and p == "proofs" and n}
            named = set(re.findall(rf"\b{alias}\.({WORD})", text)) & gone
            if named:
                print(f"look: {path} names {sorted(named)} by {alias} of {module}, which moved")
        if new != text:
            open(path, "w", encoding="utf-8").write(new)


def main(root, *crates):
    if not crates:
        crates = sorted({p.split("/crates/")[1].split("/")[0] for p in glob.glob(f"{root}/crates/*/must-fail/*.edit") if re.search(r"(?m)^file: specs/", open(p, encoding="utf-8").read())})
    where = split(root, crates)
    relink(root, where)
    print("moved: " + ", ".join(sorted({f"{c}" for c, m, n in where})))


if __name__ == "__main__":
    main(*sys.argv[1:])
