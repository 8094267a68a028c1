"""Asks ../shared/oracle: the rules in force, its program, its answers."""
import struct
import subprocess
import tempfile

# the requests in force, as the oracle names them
RULES = open("tools/rules").read().strip()


def build_oracle():
    made = "target/oracle/release/oracle"
    subprocess.run(["cargo", "build", "--quiet", "--offline", "--release", "--manifest-path", "../shared/oracle/harness/Cargo.toml", "--target-dir", "target/oracle"], check=True)
    return made


def ask(oracle, meshes, rules=RULES, more=()):
    """The oracle's answers: number, place, slots, the answer list and the work list's hash."""
    with tempfile.TemporaryDirectory() as room:
        with open(f"{room}/meshes", "wb") as f:
            for m in meshes:
                lists = (m.positions, m.normals, m.texture)
                f.write(struct.pack("<7I", len(m.sizes), *(len(l) for l in lists), m.answer, m.work, m.threshold) + bytes(m.sizes))
                for l in lists:
                    f.write(struct.pack(f"<{len(l)}I", *l))
        subprocess.run([oracle, "--ext", f"{room}/meshes", "--rules", rules, *more, "--bin", f"{room}/answers"], check=True, stderr=subprocess.DEVNULL)
        data = open(f"{room}/answers", "rb").read()
    answers, at = [], 0
    for _ in meshes:
        number, place, slots, n = struct.unpack_from("<4I", data, at)
        words = struct.unpack_from(f"<{n + 1}I", data, at + 16)
        answers.append((number, place, slots, list(words[:n]), words[n]))
        at += 20 + 4 * n
    return answers
