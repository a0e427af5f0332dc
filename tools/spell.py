#!/usr/bin/env python3
"""Writes the repository's own definitions in snake case: seqOf becomes seq_of, in contracts, definitions, proofs and must-fail edits.

usage: tools/spell.py [--check]     at the top of the repository, once

A name is one that a file of crates/*/specs or crates/*/proofs declares. Names of Rattle source, types, modules and whatever a library
declares keep their spelling; a name that would fall together with another is told, and has its own new name in FIXED. --check writes nothing.
"""
import collections
import glob
import re
import sys

SIGNATURE = re.compile(r"^( *)((?:(?:unfoldable|abbrev|pub|record|data|ruleset) )*)([^\s(){}\[\]:;,]+)( [({].*)? ?:( |$)")
TOKEN = r"[^\s(){}\[\],;.]+"
# New names that the rule alone would give to two things, or to a thing and a field or parameter beside it.
FIXED = {}
# Lemmas that got the name of a definition when a library's word was found in theirs, and go back to their own.
LEMMAS = {
    "held_after": "held-after",
    "held_all": "held-all",
    "told_of": "told-of",
    "slot_ok": "slot-ok",
    "listed_in": "listed-in",
    "in_use": "in-use",
    "held_in": "held-in",
    "held_bytes": "held-bytes",
    "read_none": "read-none",
}


def snake(name):
    return re.sub(r"(?<=[a-z0-9])([A-Z])(?=[a-z0-9-]|$)", lambda m: "_" + m[1].lower(), name)


def antt_files():
    return sorted(glob.glob("crates/*/specs/**/*.antt", recursive=True) + glob.glob("crates/*/proofs/**/*.antt", recursive=True))


def declared():
    found = collections.defaultdict(set)
    for path in antt_files():
        for line in open(path, encoding="utf-8"):
            m = SIGNATURE.match(line)
            if m and re.match(r"[a-z]", m[3]) and re.search(r"[a-z0-9][A-Z]", m[3]):
                found[m[3]].add(path)
    return found


def main():
    check = "--check" in sys.argv[1:]
    names = {n: FIXED.get(n, snake(n)) for n in declared()}
    names = {n: new for n, new in names.items() if n != new}
    sources = sorted(glob.glob("crates/*/src/**/*.rt", recursive=True))
    edits = sorted(glob.glob("crates/*/must-fail/*.edit"))
    words = {}
    for path in antt_files() + sources + edits:
        words[path] = set(re.findall(TOKEN, open(path, encoding="utf-8").read()))
    back = collections.defaultdict(list)
    for n, new in names.items():
        back[new].append(n)
    for new, olds in sorted(back.items()):
        if len(olds) > 1:
            print(f"falls together: {', '.join(olds)} as {new}")
        for old in olds:
            both = [p for p, w in words.items() if old in w and new in w]
            if both:
                print(f"beside: {old} and {new} in {', '.join(both)}")
    if check:
        return
    one = re.compile("(?<![^\\s(){}\\[\\],;.])(" + "|".join(sorted(map(re.escape, names), key=len, reverse=True)) + ")(?![^\\s(){}\\[\\],;.])")
    lemma = re.compile("(?<![^\\s(){}\\[\\],;])(" + "|".join(LEMMAS) + ")(?![^\\s(){}\\[\\],;.])")
    turned = 0
    for path in antt_files() + sources + edits:
        text = open(path, encoding="utf-8").read()
        new = lemma.sub(lambda m: LEMMAS[m[1]], text) if path.endswith(".antt") else text
        new = one.sub(lambda m: names[m[1]], new)
        if new != text:
            turned += 1
            open(path, "w", encoding="utf-8").write(new)
    print(f"{len(names)} names, {turned} files")


if __name__ == "__main__":
    main()
