#!/usr/bin/env python3
"""Writes what `replay` runs on: crates/replay/stdin (meshes with the oracle's answers), crates/replay/stdout, and the table in docs/REPLAY.md.

`python3 tools/replay.py [ORACLE]` in the repository. ORACLE is the program `oracle` of ../shared/oracle; without it, cargo builds it in target/oracle.
The meshes are tools/meshes.py's and, for slips that fewer than three of them show, random ones that show them. tools/plain.py says which slips a
mesh shows: those with which the call would answer otherwise. It is held to the oracle on every mesh first. Nothing here is left to chance: a second
run writes the same bytes.

`python3 tools/replay.py --moved e6` writes nothing: it prints the meshes that request E6 answers otherwise than before (docs/DIFFERENCES.md); so for
another request that the oracle knows."""
import itertools
import random
import re
import sys

from meshes import MINUS_0, UP, all_meshes, mesh, word
from oracle import RULES, ask, build_oracle
from plain import GROUPS, SLIPS, SLOT_WORDS, outcome, shows

COUNT = 411
WANTED = 3
TRIES = 30000


def fnv(words):
    h = 2166136261
    for w in words:
        h = (h ^ w) * 16777619 % 2**32
    return h


def corner(g, kind):
    """A random corner: on a small grid, anywhere, or near zero with signs."""
    if kind == 0:
        return (tuple(g.choice((0, 1, 2)) for _ in range(3)), UP, tuple(g.choice((0, 1, 2, -1)) for _ in range(2)))
    if kind == 1:
        return (tuple(g.randint(-64, 64) / 16 for _ in range(3)), (g.choice((0, 0.25)), 0, 1), tuple(g.randint(-8, 8) / 4 for _ in range(2)))
    if kind == 2:
        return (tuple(g.uniform(-1, 1) * k for k in (1, 0.125, 0.03125)), UP, (g.random(), g.random()))
    zero = lambda x: x if x else g.choice((0, MINUS_0, "00000001", "80000001"))
    x, y = g.choice((0, 1, 2)), g.choice((0, 1, 2))
    return ((zero(0), zero(x), zero(y)), (1, 0, 0), (x, y) if g.random() < 0.75 else (g.choice((0, 1, 2)), g.choice((0, 1, 2))))


def random_mesh(g):
    kind = g.randrange(4)
    pool = [corner(g, kind) for _ in range(g.randint(4, 7))]
    faces = [g.sample(pool, g.choice((3, 4, 4))) for _ in range(g.randint(1, 4))]
    if g.random() < 0.3:
        f = g.choice(faces)
        f[g.randrange(len(f))] = f[g.randrange(len(f))]
    return faces, g.choice((-1, -1, 0, 0.5, 0.9, 2))


def smaller(faces, threshold, slip):
    """The faces without those that are not needed to show the slip."""
    for k in range(len(faces) - 1, -1, -1):
        less = faces[:k] + faces[k + 1 :]
        m = mesh(less, threshold)
        if less and shows(m, outcome(m), slip):
            faces = less
    return faces


def search(counts):
    """Random meshes for the slips that too few show."""
    g = random.Random(2026)
    group = {s: k for k, name in enumerate(GROUPS) for s in SLIPS.get(name, [])}
    for _ in range(TRIES):
        lacking = [s for s in group if counts[s] < WANTED and group[s] > 1]
        if not lacking:
            return
        faces, threshold = random_mesh(g)
        m = mesh(faces, threshold)
        right = outcome(m)
        shown = [s for s in lacking if shows(m, right, s)]
        if shown:
            m = mesh(smaller(faces, threshold, shown[0]), threshold)
            right = outcome(m)
            for s in group:
                counts[s] += shows(m, right, s)
            yield group[shown[0]], f"found by search for '{shown[0]}'", m


def any_meshes(n):
    """Random meshes that were chosen for nothing."""
    g = random.Random(15)
    for k in range(n):
        faces, threshold = random_mesh(g)
        yield len(GROUPS) - 1, f"random mesh {k}", mesh(faces, threshold, answer=g.choice((0, 0, 3)), work=g.choice((0, 0, 2)))


def choose():
    """The meshes, by group, and how many of them show each slip."""
    made = list(all_meshes())
    counts = {s: 0 for ss in SLIPS.values() for s in ss}
    for _, _, m in made:
        right = outcome(m)
        for s in counts:
            counts[s] += shows(m, right, s)
    made += search(counts)
    made += any_meshes(COUNT - len(made))
    return sorted(made, key=lambda x: x[0])


def line(words):
    return " ".join(f"{w:X}" for w in words) + "\n"


def slot_of(answer, k, width=SLOT_WORDS):
    """The words of slot k of an answer, whose slots have so many."""
    return answer[3][width * k : width * (k + 1)]


def record(m, answer):
    """The words of a mesh, a line a face and list, and a line a slot of its answer."""
    number, place, slots = answer[:3]
    lists = (m.positions, m.normals, m.texture)
    out = line([len(m.sizes), *(len(l) for l in lists), m.answer, m.work, m.threshold, number, place, slots])
    runs = [(len(list(faces)), size) for size, faces in itertools.groupby(m.sizes)]
    out += line([n for run in runs for n in run]) if runs else ""
    for l, n in zip(lists, (3, 3, 2)):
        at = 0
        for size in m.sizes:
            out += line(l[at : at + n * size]) if l[at : at + n * size] else ""
            at += n * size
        out += line(l[at:]) if l[at:] else ""
    for k in range(slots):
        out += line(slot_of(answer, k))
    return out


def table(told):
    """The table of docs/REPLAY.md: each slip, and how many meshes show it."""
    rows = ["| Slip | Meshes that show it |", "|---|---|"]
    for name, slips in SLIPS.items():
        rows += [f"| **{name}** | |"] + [f"| {s} | {told[s]} |" for s in slips]
    return "\n".join(rows) + "\n"


def shown(m, right, told):
    """The slips that a mesh shows, counted."""
    found = [s for s in told if shows(m, right, s)]
    for s in found:
        told[s] += 1
    return found


def write_group(g, meshes, answers, first, told):
    """The text of a group: how many meshes, and each with a remark; and how many words are compared."""
    text, words = f"\n# {GROUPS[g]}\n{len(meshes):X}\n", 0
    for k, ((name, m), answer) in enumerate(zip(meshes, answers)):
        right = outcome(m)
        if (*right[:4], fnv(right[4])) != answer:
            sys.exit(f"{name}: tools/plain.py and the oracle differ")
        own = [s for s in shown(m, right, told) if s in SLIPS.get(GROUPS[g], [])]
        text += f"\n# {first + k}. {name}\n" + (f"# shows: {'; '.join(own)}\n" if own else "") + record(m, answer)
        words += 3 + m.answer + m.work
    return text, words


def write_table(told):
    doc = open("docs/REPLAY.md").read()
    parts = re.split(r"(?<=<!-- table -->\n)|(?=<!-- end -->)", doc)
    open("docs/REPLAY.md", "w").write(parts[0] + table(told) + parts[-1])


def moved(oracle, chosen, request):
    """Prints the meshes whose answers a request moves: the first slot that it moves without it, with it."""
    meshes = [m for _, _, m in chosen]
    without = ",".join(r for r in RULES.split(",") if r != request)
    width = 10 if request == "e7" else SLOT_WORDS  # before request E7 a slot had ten words; those are compared
    for k, (before, after) in enumerate(zip(ask(oracle, meshes, without), ask(oracle, meshes))):
        slots = [i for i in range(after[2]) if slot_of(before, i, width) != slot_of(after, i)[:width]]
        if before[:2] != after[:2]:
            was, now = (f"refused with {a[0]} at {a[1]}" if a[0] else f"accepted, {a[2]} slots" for a in (before, after))
            print(f"| {k} | {chosen[k][1]} | {was} | {now} |")
        elif slots:
            was, now = (" ".join(f"{w:X}" for w in l) for l in (slot_of(before, slots[0], width), slot_of(after, slots[0])))
            print(f"| {k} | {chosen[k][1]} | {len(slots)} of {after[2]} | {slots[0]}: `{was}` | `{now}` |")


def main():
    if len(sys.argv) == 3 and sys.argv[1] == "--moved":
        return moved(build_oracle(), choose(), sys.argv[2])
    oracle = sys.argv[1] if len(sys.argv) > 1 else build_oracle()
    chosen = choose()
    told = {s: 0 for ss in SLIPS.values() for s in ss}
    text = f"# Made by tools/replay.py; docs/REPLAY.md says how to read it.\n{len(GROUPS):X}\n"
    lines, first, total = "", 0, 0
    for g, name in enumerate(GROUPS):
        meshes = [(name, m) for group, name, m in chosen if group == g]
        more, words = write_group(g, meshes, ask(oracle, [m for _, m in meshes]), first, told)
        text, first, total = text + more, first + len(meshes), total + words
        lines += f"{name.split(',')[0]}: {len(meshes)} meshes, {words} words, 0 differed\n"
    lines += f"replay: {first} meshes, {total} words, 0 differed\n"
    open("crates/replay/stdin", "w").write(text)
    open("crates/replay/stdout", "w").write(lines)
    write_table(told)
    print(f"{lines}each equal to the oracle's; {len(told)} slips; shown by fewer than {WANTED}:")
    print("".join(f"  {s}: {n}\n" for s, n in told.items() if n < WANTED), end="")


main()
