#!/usr/bin/env python3
"""Writes crates/laws/proofs/SamplesOld.antt anew: the meshes stay as they are, their words are those of the oracle's old edition.

`python3 tools/samples_old.py [ORACLE]` in the repository. ORACLE is the program `oracle` of ../shared/oracle; without it, cargo builds it in
target/oracle. Groundwork of request E13: the oracle answers at the rules in force, edition 2.
"""
import re
import sys
from types import SimpleNamespace

import samples
from oracle import RULES, ask, build_oracle

PATH = "crates/laws/proofs/SamplesOld.antt"
MODULES = ["Step5Sorted", "Step5Quick", "Step5Old", "Step4Old", "FramesOld"]
CALL = re.compile(
    r"old_frames \(number (0x[0-9a-f_]+)\) \(Handed'\.mesh_from \(numbers \(([^)]*)\[\]\)\) \(numbers \(([^)]*)\[\]\)\) \(numbers \(([^)]*)\[\]\)\) 0 \(([^)]*)\[\]\)\)\)"
)


def numbers(text):
    """The numbers of a list as it is written, `a ∷ b ∷ `."""
    return [int(x, 0) for x in text.replace("∷", " ").split()]


def answer(oracle, threshold, sizes, lists):
    """The answer words of a mesh by the old edition."""
    slots = sum(size for size in sizes if size in (3, 4))
    mesh = SimpleNamespace(sizes=sizes, positions=lists[0], normals=lists[1], texture=lists[2], threshold=threshold, answer=samples.SLOT_WORDS * slots, work=128 * len(sizes))
    [(number, _, _, words, _)] = ask(oracle, [mesh], f"{RULES},e13", ("--edition", "2"))
    if number:
        sys.exit(f"a mesh is refused with {number}")
    return words


def said(note):
    """What a mesh shows, in words: from the counts that were taken when it was found."""
    count = {name: int(value) for name, value in re.findall(r"(\w+): (\d+)", note)}
    shows = [
        (count["other_bits"], "corners merged with others of other bits"),
        (count["unmerged"], "equal corners left unmerged"),
        (count["unsorted"], "sides left out of order"),
        (count["other_links"], "other links than edition 1's"),
    ]
    return f"{count['sides']} sides; " + "; ".join(what for seen, what in shows if seen)


def main():
    oracle = sys.argv[1] if len(sys.argv) > 1 else build_oracle()
    text = open(PATH, encoding="utf-8").read()
    samples.CRATES["definition"] = samples.CRATES["definition"] + MODULES
    uses, names = samples.unfolded()
    out = text[: text.index("use Prim.Native.Nat")] + samples.HEAD.split("\n", 1)[1] + uses
    out += "\n-- numbers, by their bits\nabbrev numbers : List ℕ → List Float\nnumbers l = map number l\n"
    for note, name, call in re.findall(r"^-- (.*)\npub (old-\d+) : (.*?) ≡ ", text, re.M):
        threshold, *lists, sizes = CALL.search(call).groups()
        words = answer(oracle, int(threshold, 0), numbers(sizes), [numbers(l) for l in lists])
        told = said(note) if "Stat {" in note else note
        out += f"\n-- {told}\npub {name} : {call} ≡ {samples.words(words)}\nunfolding {names} {samples.IEEE} xor flat_map\n{name} = refl\n"
    open(PATH, "w", encoding="utf-8").write(out)


if __name__ == "__main__":
    main()
