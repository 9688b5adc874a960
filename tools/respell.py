#!/usr/bin/env python3
"""Brings the repository's own definitions and lemmas to Rattle's spelling: words in snake case. Run once, at the top, after port.py.

Collected are the names that specs/ and the lemma files of proofs/ define, with fields and local names. A lemma that would have a definition's name gets
`_lem`. Functions of src/, types, modules, strings, inputs and outputs keep their names. Turned are .antt and .rt files, the must-fail edits and the
mutations, and what stands between backticks in pages. Prints what fell together, and what it left since a name of the library is spelled alike."""
import collections
import glob
import re
import sys

DEFINITION = re.compile(r"^\s*(?:(?:unfoldable|abbrev|pub) )*([^\s(){}\[\],.;:]+(?: [^\s(){}\[\],.;:]+)*) :(?: |$)")
RULESET = re.compile(r"^\s*(?:pub )?ruleset ([^\s(){}\[\],.;:]+) =")
LET = re.compile(r"\blet ([^\s(){}\[\],.;:]+) (?:=|:)")
TOKEN = re.compile(r"[^\s(){}\[\],.;:`\"⌜⌝@/|!&*=<>]+")
WORDS = {"pub", "record", "data", "abbrev", "unfoldable", "where", "ruleset"}


def lemma_files():
    return sorted(glob.glob("crates/*/specs/**/*.antt", recursive=True)) + sorted(glob.glob("crates/*/proofs/*.antt"))


def snake(name):
    parts = []
    for part in name.split("-"):
        if re.match(r"[a-z]", part):
            part = re.sub(r"(?<=[a-z0-9])[A-Z]+", lambda m: "_" + m.group().lower(), part)
        parts.append(part)
    return "_".join(p for p in parts)


def defined():
    names = collections.defaultdict(set)
    for path in lemma_files():
        for line in open(path):
            code = line.split("-- ")[0]
            m = DEFINITION.match(code)
            for n in m.group(1).split() if m else []:
                if n not in WORDS and not n.startswith("("):
                    names[n].add(path)
            m = RULESET.match(code)
            if m:
                names[m.group(1)].add(path)
            for n in LET.findall(code):
                names[n].add(path)
    return names


def crates():
    return {p.split("/")[1] for p in glob.glob("crates/*/")}


def imported():
    own = tuple("Rattle." + c + "." for c in crates())
    names = collections.defaultdict(set)
    for path in glob.glob("crates/**/*.antt", recursive=True) + glob.glob("crates/*/src/**/*.rt", recursive=True):
        for m in re.finditer(r"use ([^\s{;]+)\.\{([^}]*)\}", open(path).read()):
            if not m.group(1).startswith(own):
                for n in m.group(2).split(","):
                    names[n.strip().split(" as ")[-1]].add(path)
    return names


def turned_names(names, outer):
    groups = collections.defaultdict(list)
    for n in names:
        groups[snake(n)].append(n)
    turned = {}
    for new, olds in sorted(groups.items()):
        camel = [n for n in olds if "-" not in n and n != new]
        keeps = camel[0] if camel else new if new in olds else olds[0]
        for n in sorted(olds):
            to = new if n == keeps else new + "_lem"
            if to == n:
                continue
            if n in outer:
                print("left, a name of the library:", n)
                continue
            if to in outer:
                print("would be a name of the library:", n, to)
                to += "_lem"
            turned[n] = to
            if len(olds) > 1:
                print("fell together:", n, "->", to)
    return turned


def rewrite(path, turned):
    text = open(path).read()
    new = TOKEN.sub(lambda m: turned.get(m.group(), m.group()), text)
    if new != text:
        open(path, "w").write(new)


def rewrite_page(path, turned):
    text = open(path).read()
    new = re.sub(r"`[^`\n]*`", lambda q: TOKEN.sub(lambda m: turned.get(m.group(), m.group()), q.group()), text)
    if new != text:
        open(path, "w").write(new)


def main():
    names, outer = defined(), imported()
    turned = turned_names(names, outer)
    made = {o: n for o, n in turned.items() if "-" in o or re.search(r"[A-Z]", o)}
    for path in glob.glob("crates/**/*.antt", recursive=True):
        rewrite(path, turned)
    for path in glob.glob("crates/*/src/**/*.rt", recursive=True):
        rewrite(path, made)
    for path in glob.glob("crates/*/must-fail/*.edit") + glob.glob("tests/mutations/*.edit"):
        rewrite(path, made)
    for path in ["README.md"] + glob.glob("docs/*.md"):
        rewrite_page(path, made)
    print(len(turned), "names")


main()
