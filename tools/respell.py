#!/usr/bin/env python3
"""Respells this repository's own definitions and lemmas as the kit 13f spells names: words in snake case.

usage: respell.py [--list]      at the top, once, right after the kit's port.py

A word is respelled where it begins with a small letter and a part of it has a capital one (upTo-more is now up_to-more; getD, std's
word, is get_or), and where specs/ declares it with a dash (demand-1 is now demand_1), if no other word has that spelling. Types, modules,
strings, characters and what src/ has outside of clauses keep their spelling. --list prints what would be respelled, which of the new words
were there before, and writes nothing.
"""
import glob
import re
import sys

WORD = re.compile(r"[A-Za-z0-9_'ᶠ-]+")
CAMEL = re.compile(r"^[a-z][a-z0-9_']*[A-Z]")
DECLARED = re.compile(r"^\s*(?:(?:abbrev|opaque|unfoldable|pub|instance)\s+)*(?:(?:record|data)\s+)?([^\s:(){},.=|]+)\s*(?:[{(].*)?:(?:\s|$)")
# strings and characters; a comment; anything else
PIECES = re.compile(r"""("(?:[^"\\\n]|\\.)*"|b'(?:[^'\\]|\\.)'|(?:--|//)[^\n]*)""")


# std's word for one of its older ones, and two whose new spelling stands for something else where they are used
OTHERWISE = {"getD": "get_or", "listBack": "list_after", "allRead": "whole_read"}


def snake(part):
    """upTo as up_to; a part with no small letter in front keeps its spelling."""
    if part in OTHERWISE:
        return OTHERWISE[part]
    if not CAMEL.match(part):
        return part
    return re.sub(r"(?<=[a-z0-9'])_?([A-Z]+)|_([A-Z]+)", lambda m: "_" + (m[1] or m[2]).lower(), part)


def files(*patterns):
    return sorted(f for p in patterns for f in glob.glob(p, recursive=True) if "/out/" not in f)


def texts():
    places = ("specs/**/*.antt", "proofs/**/*.antt", "src/**/*.rt", "must-fail/*.edit", "controls/*.edit")
    return {f: open(f, encoding="utf-8").read() for f in files(*(f"crates/*/{p}" for p in places))}


def dashed(all_texts):
    """The words with a dash that specs/ declares and that may have an underscore for it, since no other word has that spelling."""
    found, words = set(), set()
    for f, text in all_texts.items():
        if not f.endswith(".antt"):
            continue
        words |= {"-".join(snake(p) for p in w.split("-")) for w in WORD.findall(text)}
        for line in text.split("\n") if "/specs/" in f else []:
            m = DECLARED.match(line)
            if m and "-" in m[1] and WORD.fullmatch(m[1]) and not line.lstrip().startswith(("use ", "pub use ", "--")):
                found.add(m[1])
    return {w for w in found if w.replace("-", "_") not in words}


def turned(text, of_specs, seen):
    """The text with each word respelled."""
    def one(m, dashes):
        word = m[0].replace("-", "_") if dashes and m[0] in of_specs else m[0]
        new = "-".join(snake(p) for p in word.split("-"))
        if new != m[0]:
            seen.setdefault(m[0], new)
        return new

    def piece(t):
        if t.startswith(("--", "//")):
            # a comment's own words keep their dashes; what it cites does not
            return "".join(WORD.sub(lambda m: one(m, u.startswith("`")), u) for u in re.split(r"(`[^`\n]*`)", t))
        return t if t.startswith(('"', "b'")) else WORD.sub(lambda m: one(m, True), t)

    return "".join(piece(t) for t in PIECES.split(text))


def main(argv):
    all_texts, seen, before = texts(), {}, {}
    of_specs = dashed(all_texts)
    for f, text in all_texts.items():
        for w in WORD.findall(text):
            before.setdefault(w, set()).add(f)
        new = turned(text, of_specs, seen)
        if "--list" not in argv and new != text:
            open(f, "w", encoding="utf-8").write(new)
    back = {}
    for old, new in sorted(seen.items()):
        back.setdefault(new, []).append(old)
        print(f"{old} {new}")
    for new, old in sorted(back.items()):
        both = before.get(new, set()) & set().union(*(before[o] for o in old))
        if both or len(old) > 1:
            print(f"falls together: {' '.join(old)} as {new}: {' '.join(sorted(both))}")


if __name__ == "__main__":
    main(sys.argv[1:])
