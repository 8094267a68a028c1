#!/usr/bin/env python3
"""Whether the papers cite what is there.

    tools/papers.py     prints a line for each thing that is missing; exit status 1 where there is one

Outside of blocks of code these are looked for:
- a link's file and heading;
- a path in backticks, below the folders that its paragraph, row or chapter speaks of too;
- a name in backticks, as a word of code, specs or proofs (comments do not count);
- '`a`, `b` of `FILE`', '`FILE`: `a`, `b`' and '`FILE` (`a`, `b`)': a and b in that very file; '`a` of `CRATE`': in that crate;
- '`returns` of `f`': a function f; `File.a`, where there is such a file: a in it;
- each crate of crates.txt in crates/README.md and in docs/crates.svg.
docs/LANDINGS.md and docs/PORT.md tell of trees that were: of them only the links."""
import functools
import itertools
import os
import pathlib
import re
import sys

ROOT = pathlib.Path(__file__).resolve().parent.parent
PAPERS = ["README.md", "crates/README.md", "bench/README.md", "side_by_side/README.md"]
PAST = {"docs/LANDINGS.md", "docs/PORT.md", "docs/DESIGN-PASS.md"}
# below which a paper's short paths stand
BELOW = {"docs/PROMISES.md": ["crates/promises"], "docs/EXAMINER.md": ["crates/promises/specs"]}
# what papers name and the tree has not: a function of the crate, words of the kit, a form of a line, a program that is gone, what rt makes
OUTSIDE = {"generate_triangle_info_list", "deps", "same-length-N", "v/vt/vn", "tools/steps"}
MADE = re.compile(r"crates/\w+/out(?:/|$)|target/|\.\./shared|/")
CODE = {".rt", ".antt", ".rs", ".h", ".py", ".toml", ".sh", ".txt", ""}
FILE = r"[^`\s]+\.(?:antt|rt|rs|py|h|toml|sh)"
NAMES = r"(?:`[^`]+`(?:, | and |,\n *)?)+"


def tree():
    for folder, below, names in os.walk(ROOT):
        below[:] = sorted(d for d in below if d not in {".git", "target", "out", "dokphalun-demo", "__pycache__"})
        yield from (pathlib.Path(folder, name).relative_to(ROOT) for name in sorted(names))


TREE = list(tree())
PATHS = {str(p) for p in TREE} | {str(d) for p in TREE for d in p.parents}


@functools.cache
def text_of(path):
    """A file's text; of code without comments, of specs and proofs also without the lines that name what they use of others."""
    text = (ROOT / path).read_text(errors="replace")
    if path.endswith(".antt"):
        return re.sub(r"--.*|^use .*", "", text, flags=re.M)
    return re.sub(r"//.*", "", text) if path.endswith((".rt", ".rs")) else text


@functools.cache
def words(path):
    """The words of a file, or of all files of a crate; a word of specs and proofs may hold a hyphen."""
    if path in PATHS and not (ROOT / path).is_dir():
        text = text_of(path)
        return set(re.findall(r"[A-Za-z_]\w*", text)) | set(re.findall(r"[^\s(){}\[\],;`'\".]+", text))
    return set().union(*(words(str(p)) for p in TREE if str(p).startswith(path + "/") and p.suffix in CODE))


SOURCES = [str(p) for p in TREE if p.suffix in CODE and p.parts[0] != "parked" and p.name not in {"papers.py", "stdin", "NOTICE"}]
ALL = set().union(*map(words, SOURCES), *({p.stem, p.name, *p.parts} for p in TREE))
FUNCTIONS = {f for p in SOURCES if p.endswith(".rt") for f in re.findall(r"\bfn (\w+)", text_of(p))}


@functools.cache
def headings(path):
    """The anchors of a paper, as they are made of its headings."""
    found = re.findall(r"^#+ +(.*)$", (ROOT / path).read_text(), re.M)
    return {re.sub(r"[^\w\- ]", "", re.sub(r"\[([^]]*)\]\([^)]*\)", r"\1", h).lower()).replace(" ", "-") for h in found}


def place(name, paper, folders=()):
    """The path in the tree that a paper means, or None. CRATE, NAME and a star stand for any; CRATE/LABEL is a must-fail edit."""
    crate, _, label = name.partition("/")
    if f"crates/{crate}/must-fail/{label}.edit" in PATHS:
        return f"crates/{crate}/must-fail/{label}.edit"
    pattern = re.sub(r"\*+", "*", re.sub(r"CRATE|NAME|StepN", "*", name.rstrip("/")))
    usual = ["", "crates", str(pathlib.PurePath(paper).parent)]
    for folder, end in itertools.product([*usual, *folders, "crates/definition/specs", "crates/definition"], ("", ".antt", ".edit")):
        full = os.path.normpath(os.path.join(folder, pattern + end))
        if full in PATHS or "*" in full and next(ROOT.glob(full), None):
            return full
    return None


def spoken_of(part, paper):
    """The folders of the paths and crates that a part of a paper names."""
    found = []
    for name in re.findall(r"`([^`]+)`", part):
        path = f"crates/{name}/src/lib.rt" if f"crates/{name}" in PATHS else place(name, paper) if "/" in name else None
        if path:
            top = "/".join(path.split("/")[:2])
            found += [os.path.dirname(path), top, top + "/specs", top + "/proofs"]
    return found


def is_path(name):
    return re.fullmatch(r"[\w.*~-]+(?:/[\w.*-]+)+/?|[\w-]+\.(?:md|svg|csv|txt|c)|" + FILE, name)


def is_name(name):
    return not is_path(name) and re.fullmatch(r"[A-Za-z_][\w-]*(?:(?:::|\.)[A-Za-z_][\w-]*)*(?:\(\))?", name)


def parts(name):
    return set(re.split(r"::|\.", name.removesuffix("()")))


def links(paper, text):
    for m in re.finditer(r"\]\(([^)\s]+)\)", text):
        target, _, anchor = m[1].partition("#")
        path = os.path.normpath(pathlib.PurePath(paper).parent / target) if target else paper
        if not re.match(r"https?:", target) and path not in PATHS:
            yield m.start(), f"the link {m[1]} leads nowhere"
        elif anchor and anchor not in headings(path):
            yield m.start(), f"{path} has no heading {anchor}"


def plain_paths(text):
    """Paths below the repository's own folders, wherever they stand: in sentences and in commands too."""
    for m in re.finditer(r"(?<![\w./*-])(?:docs|tools|crates|bindings|command|side_by_side|bench|include|examples|\.ci)/[\w./-]*\w", text):
        if m[0] not in PATHS | OUTSIDE and not MADE.match(m[0]) and not place(m[0], "README.md"):
            yield m.start(), f"no file {m[0]}"


def cited(paper, part, folders):
    """What a paragraph, an item or a row cites: paths, names, and names of a file, a crate or a function."""
    for m in re.finditer(r"`([^`]+)`", part):
        name = m[1]
        outside = name in OUTSIDE or MADE.match(name)
        if is_path(name) and not outside and not place(name, paper, folders):
            yield m.start(), f"no file {name}"
        elif is_name(name) and not outside and not parts(name) <= ALL:
            yield m.start(), f"no name {name}"
        file, _, rest = name.partition(".")
        path = place(file + ".antt", paper, folders) if is_name(name) and re.match("[A-Z].*[.]", name) else None
        if path and not parts(rest) <= words(path):
            yield m.start(), f"{path} has no {rest}"
    of_file = re.finditer(rf"(?P<names>{NAMES})\s+(?:of|in)\s+`(?P<file>{FILE}|[a-z]+)`", part)
    file_has = re.finditer(rf"`(?P<file>{FILE})`(?:: | \(|:\n *)(?P<names>{NAMES})", part)
    for m in itertools.chain(of_file, (m for m in file_has if not re.match(r"\s+(?:of|in)\s+`", part[m.end() :]))):
        crate = f"crates/{m['file']}"
        path = crate if crate in PATHS else place(m["file"], paper, folders) if "." in m["file"] else None
        for name in filter(is_name, re.findall(r"`([^`]+)`", m["names"])) if path and "*" not in path else ():
            if not parts(name) <= words(path) | set(path.split("/")):
                yield m.start(), f"{path} has no {name}"
    for m in re.finditer(r"`(?:returns|loop-\w+)(?:-\d+)?`\s+of\s+`([a-z_]+)`(?: and (?:of )?`([a-z_]+)`)?", part):
        for name in filter(None, m.groups()):
            if name not in FUNCTIONS:
                yield m.start(), f"no function {name}"


def check(paper):
    text = (ROOT / paper).read_text()
    found = set(links(paper, text)) | set(plain_paths(text) if paper not in PAST else ())
    prose = re.sub(r"(?ms)^```.*?^```|(?<=\n\n)(?:    [^\n]*\n|\n(?=    ))+", lambda m: re.sub(r"[^\n]", " ", m[0]), text)
    for part in re.finditer(r"(?m)^.*\S.*\n?(?:^(?!\s*$|\s*[-|#] |\s*\d\. ).*\n?)*", prose) if paper not in PAST else ():
        chapter = prose[prose.rfind("\n#", 0, part.start()) + 1 : part.start()]
        folders = BELOW.get(paper, []) + spoken_of(part[0], paper) + spoken_of(chapter, paper)[::-1]
        found |= {(part.start() + at, what) for at, what in cited(paper, part[0], folders)}
    return [f"{paper}:{text.count(chr(10), 0, at) + 1}: {what}" for at, what in sorted(found)]


def crates():
    """Each crate has a row in crates/README.md and a box in docs/crates.svg."""
    rows, boxes = (ROOT / "crates/README.md").read_text(), (ROOT / "docs/crates.svg").read_text()
    for crate in re.findall(r"^(\w+):", (ROOT / "crates.txt").read_text(), re.M):
        if f"| `{crate}` |" not in rows:
            yield f"crates/README.md: no row of crate {crate}"
        if f">{crate}</text>" not in boxes:
            yield f"docs/crates.svg: no box of crate {crate}"


papers = PAPERS + sorted(str(p) for p in TREE if p.parts[0] == "docs" and p.suffix == ".md")
missing = [*crates(), *(line for paper in papers for line in check(paper))]
print(*missing, f"{len(papers)} papers, {len(missing)} missing", sep="\n")
sys.exit(bool(missing))
