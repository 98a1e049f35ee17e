#!/usr/bin/env python3
"""Brings this repository's own names in specs/ and proofs/ to the toolchain's spelling, after its port.py.

usage: tools/respell.py [--dry]      at the top of the repository; prints what falls together, and ends with 1 if anything does

Words are in snake case. In a lemma's name a dash stays where it joins two names (`length-part`), or a name of several
words to another; any other dash becomes an underscore. Names of types keep their spelling. What is declared in a file is found by
its form; tokens are replaced whole, in specs/, proofs/, clauses, and the documents.
"""
import collections
import glob
import os
import re
import sys

TOKEN = re.compile(r"[A-Za-z0-9_'\u00c0-\u024f-]+")
HEAD = re.compile(r"^ *(?:(?:pub|abbrev|unfoldable|opaque|rewrite) +)*(?:(?:ruleset|data|record|inductive) +)?([A-Za-z][A-Za-z0-9_'-]*)(?= )")
STD = {"length", "take", "drop", "reverse", "replicate", "get_or", "append", "sum", "map", "max", "min", "cond", "add", "sub"}
# Calls of the claims' table that would have the name of the definition that their row cites.
CALLS = ("file-test", "header-test", "view-test", "position-test", "signal-test", "record-test", "undo-layer", "encode-samples", "undo-samples")

# A variable that would have the name of the definition that its line cites.
VARIABLES = {("crates/sff_format/specs/View.antt", "whole_part"): "span"}


def own_files():
    return sorted(glob.glob("crates/*/specs/**/*.antt", recursive=True) + [f for f in glob.glob("crates/*/proofs/**/*.antt", recursive=True) if os.path.basename(f) not in ("Proof.antt", "Answers.antt", "Invariants.antt")])


def declared():
    names, words = set(), set()
    for f in own_files():
        for line in open(f, encoding="utf-8"):
            if line.lstrip().startswith("--") or line.startswith("use "):
                continue
            m = HEAD.match(line)
            if not m:
                continue
            rest = line[m.end():]
            if " : " not in " " + rest and not rest.startswith(" =") and not rest.lstrip().startswith(":") and "(" not in rest and "{" not in rest:
                continue
            names.add(m.group(1))
            if ("/specs/" in f or re.match(r" *(pub )?(abbrev|unfoldable|opaque)", line)) and m.group(1) not in CALLS:
                words.add(m.group(1))
    return names, words


def foreign():
    """Names that files bring in from the toolchain's libraries: they are not ours to respell."""
    own = {os.path.basename(c) for c in glob.glob("crates/*")}
    names = set()
    for f in glob.glob("crates/*/specs/**/*.antt", recursive=True) + glob.glob("crates/*/proofs/**/*.antt", recursive=True) + glob.glob("crates/*/src/**/*.rt", recursive=True):
        for module, listed in re.findall(r"use ([\w.+]+)\.\{([^}]*)\}", open(f, encoding="utf-8").read()):
            parts = module.split(".")
            if parts[0] != "Rattle" or parts[1] not in own:
                names |= {n.strip().split(" as ")[0] for n in listed.split(",")}
    return names


def snake(part):
    return re.sub(r"(?<=[a-z0-9])([A-Z])", lambda m: "_" + m.group(1).lower(), part)


def spelled(name, words):
    parts = name.split("-")
    if any(p[:1].isupper() for p in parts):
        return name
    if any(p == "" for p in parts):
        return name
    new = [snake(p) for p in parts]
    if len(parts) == 1:
        return new[0]
    if any(re.search("[a-z][A-Z]", p) for p in parts):
        return "-".join(new)
    if name not in words and len(parts) == 2 and all(p in words or p in STD for p in parts):
        return "-".join(new)
    return "_".join(new)


def main(argv):
    names, words = declared()
    turned = {n: spelled(n, words) for n in names}
    definitions = {turned[n] for n in words}
    # a lemma that would have the name of a definition gets `_lem`
    turned = {n: s + "_lem" if n not in words and s in definitions else s for n, s in turned.items()}
    turned = {n: s for n, s in turned.items() if n != s and n not in CALLS}
    kept = foreign()
    turned = {n: s for n, s in turned.items() if n not in kept}
    calls = turned | {n: n.replace("-", "_") + "_call" for n in CALLS}
    bad = 0
    targets = sorted(glob.glob("crates/*/specs/**/*.antt", recursive=True) + glob.glob("crates/*/proofs/**/*.antt", recursive=True) + glob.glob("crates/*/src/**/*.rt", recursive=True))
    documents = ["README.md"] + glob.glob("docs/*.md") + ["tests/names"]
    for f in targets + documents:
        text = open(f, encoding="utf-8").read()
        table = calls if f.startswith("crates/claims/") else turned
        table = table | {n: s for (g, n), s in VARIABLES.items() if g == f}
        if f.endswith(".rt"):
            # functions keep their names
            table = {n: s for n, s in table.items() if re.search("-|[a-z][A-Z]", n)}
        if f in documents:
            chosen = {n: s for n, s in turned.items() if re.search("[a-z][A-Z]", n)}
            new = re.sub(r"`[^`\n]+`", lambda m: TOKEN.sub(lambda t: turned.get(t.group(0), t.group(0)), m.group(0)), text) if f != "tests/names" else text
            new = TOKEN.sub(lambda t: chosen.get(t.group(0), t.group(0)), new)
        else:
            back = collections.defaultdict(set)
            code = "\n".join(l for l in text.splitlines() if not l.lstrip().startswith(("--", "//")))
            for t in set(TOKEN.findall(code)):
                back[table.get(t, t)].add(t)
            for new, olds in sorted(back.items()):
                if len(olds) > 1:
                    print(f"{f}: {' '.join(sorted(olds))} fall together as {new}")
                    bad += 1
            new = TOKEN.sub(lambda t: table.get(t.group(0), t.group(0)), text)
        if "--dry" not in argv and new != text:
            open(f, "w", encoding="utf-8").write(new)
    print(f"{len(turned)} names of {len(names)} are spelled anew; {bad} fall together")
    return 1 if bad else 0


if __name__ == "__main__":
    raise SystemExit(main(sys.argv[1:]))
