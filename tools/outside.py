#!/usr/bin/env python3
"""outside.py ORACLE SEED COUNT [MOST]: a test of the definition from outside.

Has the oracle make COUNT meshes of each kind and answer them, and the checker compute what `outcome` of crate `definition`
says of those with at most MOST corners (12 unless said): number, place, slots and every word of the answer list, and the
work list by its first words. ORACLE is the folder with the oracle's programs `gen` and `oracle`
(cargo build --offline --release --manifest-path ../shared/oracle/harness/Cargo.toml --target-dir DIR makes DIR/release).
Run it in the repository after `rt check`. It works in a folder of its own and takes some seconds a mesh, so it is not in
the gate. Prints how many meshes were compared; the exit status is 1 if one differed."""
import os
import re
import shutil
import struct
import subprocess
import sys
import tempfile

sys.path.insert(0, os.path.dirname(os.path.abspath(__file__)))
import samples
from oracle import RULES
from plain import SLOT_WORDS

KINDS = ("mesh", "zeros", "refused", "extreme", "needle")


def read_meshes(data):
    """The meshes of an ext file: sizes, positions, normals, texture, lengths of the lent lists, threshold (all as words)."""
    at = 0
    while at < len(data):
        f, np, nn, nt, a, w, h = struct.unpack_from("<7I", data, at)
        at += 28
        sizes = list(data[at : at + f])
        at += f
        lists = []
        for n in (np, nn, nt):
            lists.append(list(struct.unpack_from(f"<{n}I", data, at)))
            at += 4 * n
        yield sizes, *lists, a, w, h


def read_answers(data):
    """The answers of an out file: number, place, slots, answer words."""
    at = 0
    while at < len(data):
        number, place, slots, a = struct.unpack_from("<4I", data, at)
        at += 16
        yield number, place, slots, list(struct.unpack_from(f"<{a}I", data, at))
        at += 4 * a + 4


def theorem(name, mesh, answer, names):
    sizes, places, normals, texture, a, w, h = mesh
    number, place, slots, words = answer
    lent = [0xA5A5_0000 + i for i in range(a)]
    hexes = lambda l: "(map number " + samples.words(l) + ")"
    call = (
        f"Outcome'.outcome (call (handed {samples.sizes(sizes)} {hexes(places)} {hexes(normals)} {hexes(texture)}) (number {samples.numeral(h)}) "
        f"{samples.words(lent)} (replicate {w} 9))"
    )
    start = 0 if number == 0 and w > 0 and sizes else 9
    seen = f"seen ({call})"
    expected = samples.words([number, place, slots] + ([start] if w else []) + words)
    return f"{name} : {seen} ≡ {expected}\nunfolding {names} {samples.IEEE} xor flat_map\n{name} = refl\n\n"


def main():
    if len(sys.argv) not in (4, 5):
        sys.exit(__doc__)
    oracle, seed, count = sys.argv[1], sys.argv[2], sys.argv[3]
    most = int(sys.argv[4]) if len(sys.argv) == 5 else 12
    uses, names = samples.unfolded()
    with tempfile.TemporaryDirectory() as room:
        text = samples.HEAD + uses + "\n-- number, place, slots, the first word of the work list, the answer\nabbrev seen : Outcome'.Result → List ℕ\nseen r = (r.number ∷ r.place ∷ r.slots ∷ []) ++ (take 1 (r.work) ++ r.answer)\n\n"
        compared = 0
        for kind in KINDS:
            mesh_file, out_file = f"{room}/{kind}.ext", f"{room}/{kind}.out"
            subprocess.run([f"{oracle}/gen", seed, count, kind, mesh_file, "--rules", RULES], check=True, capture_output=True)
            subprocess.run([f"{oracle}/oracle", "--ext", mesh_file, "--rules", RULES, "--bin", out_file], check=True, capture_output=True)
            meshes, answers = read_meshes(open(mesh_file, "rb").read()), read_answers(open(out_file, "rb").read())
            for mesh, answer in zip(meshes, answers):
                if len(mesh[0]) <= most and sum(mesh[0]) <= most and len(mesh[1]) <= 3 * most + 3 and mesh[4] <= SLOT_WORDS * (most + 1):
                    text += theorem(f"{kind}-{compared}", mesh, answer, names)
                    compared += 1
        shutil.copytree("crates", f"{room}/crates", ignore=shutil.ignore_patterns("must-fail"))
        os.makedirs(f"{room}/crates/outside/src")
        os.makedirs(f"{room}/crates/outside/proofs")
        open(f"{room}/crates/outside/src/lib.rt", "w").write("// The oracle's meshes.\n")
        open(f"{room}/crates/outside/proofs/Lib.antt", "w").write("pub mod Outside\n")
        open(f"{room}/crates/outside/proofs/Outside.antt", "w", encoding="utf-8").write(text.rstrip("\n") + "\n")
        shutil.copy("crates.txt", f"{room}/crates.txt")
        open(f"{room}/crates.txt", "a").write("outside: definition bits root angle math tangent\n")
        ran = subprocess.run(["rt", "check"], cwd=f"{room}/crates/outside", capture_output=True, text=True)
        said = ran.stdout + ran.stderr
        wrong = sorted(set(re.findall(rf"error: `((?:{'|'.join(KINDS)})-\d+)`", said)))
        if ran.returncode and not wrong:
            print(said[-3000:])
        print(f"{compared} meshes compared with the oracle, {len(wrong)} differed {' '.join(wrong)}")
        sys.exit(1 if ran.returncode else 0)


if __name__ == "__main__":
    main()
