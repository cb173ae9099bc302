#!/usr/bin/env python3
"""Respells the repository's own definitions and lemmas: words in snake case, and a dash only where it joins two names.

usage: tools/respell.py [--list]        at the top of the repository, once, after the kit's port.py

Goals, steps and other names that Rattle makes keep their spelling, and so do functions of src/ and strings.
"""
import glob
import os
import re
import sys

LIBRARY = "/opt/rattle/rattle"
FUNCTION_FILES = ("Proof.antt", "Answers.antt", "Invariants.antt")  # below proofs/; specs/ has files of these names too
FIELDS = ("key-ids",)  # a field's name stands beside a name of src/ without harm
SIGNATURE = re.compile(r"^\s*(?:(?:pub|abbrev|unfoldable) +)*(record |data |ruleset )?(\S+) :(?=\s|$)")
TOKEN = re.compile(r"[^\s(){}\[\];,.\"`]+")


def antt(root):
    for folder, dirs, files in os.walk(root):
        dirs[:] = [d for d in dirs if d not in ("out", "target")]
        for f in files:
            if f.endswith(".antt"):
                yield os.path.join(folder, f)


def signatures(path):
    with open(path, encoding="utf-8") as f:
        for line in f:
            m = SIGNATURE.match(line)
            if m and not line.lstrip().startswith("--"):
                yield m.group(2)


def snake(word):
    """matchName to match_name; a last capital alone too: bytesP to bytes_p."""
    return re.sub(r"(?<=[a-z0-9])([A-Z])", lambda m: "_" + m.group(1).lower(), word) if word[:1].islower() else word


def respelled(name, words):
    """Each part in snake case; a dash stays where both its sides are names, and is a _ elsewhere."""
    parts = [snake(p) for p in name.split("-")]
    pieces, i = [], 0
    while i < len(parts):
        for j in range(len(parts), i, -1):
            if "_".join(parts[i:j]) in words:
                break
        else:
            j = i + 1
        pieces.append("_".join(parts[i:j]))
        i = j
    out = pieces[0]
    for before, after in zip(pieces, pieces[1:]):
        out += ("-" if before in words and after in words else "_") + after
    return out


def code_tokens(path):
    """The names that the file's code speaks of, without comments and the paths of imports."""
    out = set()
    with open(path, encoding="utf-8") as f:
        for line in f:
            line = line.split("--")[0]
            if line.startswith("use "):
                line = line.partition("{")[2]
            out.update(TOKEN.findall(line))
    return out


def names(root):
    """The repository's own definitions and lemmas, and those of them that specs/ has."""
    own, specs = set(), set()
    for p in antt(root):
        for n in signatures(p):
            if "/specs/" in p or os.path.basename(p) not in FUNCTION_FILES:
                own.add(n)
                if "/specs/" in p:
                    specs.add(n)
    return own, specs


def turning(own, specs, library):
    """Old name to new. Where a definition takes a lemma's name, the lemma gets _lem."""
    words = {snake(n) for n in specs if "-" not in n and n[:1].islower()}
    words |= {n for n in library if n in ("length", "take", "drop", "set", "map", "append", "reverse", "filter", "replicate", "sum", "concat", "fold", "any", "all")}
    turn = {}
    for n in own:
        if n not in library and re.search(r"[A-Z]|\w-\w", n) and n[:1].islower():
            turn[n] = respelled(n, words)
    turn = {old: new for old, new in turn.items() if old != new}
    camel = {new for old, new in turn.items() if "-" not in old}
    together = [code_tokens(p) for p in antt("crates")]
    for old, new in sorted(turn.items()):
        if "-" in old and old not in specs and old not in FIELDS and (new in camel or any(old in t and new in t for t in together)):
            turn[old] = new + "_lem"
        elif "-" not in old and new in own - specs and any(old in t and new in t for t in together):
            turn[new] = new + "_lem"
    return turn


def main(argv):
    own, specs = names("crates")
    library = {n for p in antt(LIBRARY) for n in signatures(p)}
    turn = turning(own, specs, library)
    if "--list" in argv:
        for o in sorted(turn):
            print(o, turn[o])
        return 0

    def turned(text):
        return TOKEN.sub(lambda m: turn.get(m.group(0), m.group(0)), text)

    for p in list(antt("crates")) + sorted(glob.glob("crates/*/src/**/*.rt", recursive=True)):
        with open(p, encoding="utf-8") as f:
            old = f.read()
        if p.endswith(".rt"):
            parts = re.split(r'("(?:[^"\\\n]|\\.)*")', old)
            new = "".join(t if i % 2 else re.sub(r"[\w'-]+", lambda m: turn.get(m.group(0), m.group(0)), t) for i, t in enumerate(parts))
        else:
            new = turned(old)
        if new != old:
            with open(p, "w", encoding="utf-8") as f:
                f.write(new)
    print(f"respell: {len(turn)} names")
    return 0


if __name__ == "__main__":
    raise SystemExit(main(sys.argv[1:]))
