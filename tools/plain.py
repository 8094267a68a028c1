"""Document 01 in plain Python: what the public call answers, and what it would answer with a slip in one of its sentences.

`outcome(mesh)` gives number, place, slots and the two lists after the call; `outcome(mesh, slip)` the same with one of SLIPS.
Used by tools/replay.py, which holds it to the oracle's answers and asks it which slips a mesh would show."""
import math
import struct
from ctypes import c_float

MIN_NORMAL, LARGEST = 2.0**-126, 2.0**128 - 2.0**104
TURN = struct.unpack("<f", struct.pack("<I", 0x31490FDB))[0]
COSINES = [round(2**30 * math.cos(math.pi * k / 1024)) for k in range(1025)]
ANSWER_BASE, WORK_BASE = 0xA5A50000, 0x5A5A0000
SLOT_WORDS = 12
# where a frame came from: its word 10 (request E7)
SINGLE, COMBINED, COPIED, FILLED = 1, 2, 3, 4
MOST_FACES = 65536
LIMIT_REFUSED, LIMIT_EXCEEDED = f"{MOST_FACES:,} faces are too many", f"{MOST_FACES + 1:,} faces are not too many"

# Each slip with the group of rules that it breaks; the group's number is the one in the data of `replay`.
GROUPS = [
    "refusals",
    "lists and slots",
    "step 1, cuts",
    "step 2, degenerate",
    "step 3, tangents",
    "step 4, welding",
    "step 5, links",
    "step 6, groups",
    "step 7, sums",
    "step 8, slots reached twice",
    "step 9, copies",
    "numbers",
    "mixed",
]
SLIPS = {
    "refusals": [
        LIMIT_REFUSED, LIMIT_EXCEEDED, "no faces are refused", "positions may have any length",
        "normals may have any length", "texture may have any length", "longer lists pass", "a NaN threshold passes",
        "an infinite threshold passes", "a NaN passes", "an infinity passes", "positions are not looked at",
        "normals are not looked at", "texture is not looked at", "faces of every size are looked at", "the last bad corner",
        "its place counted in slots", "its place counted in its face", "its face for its place", "12S words are too few", "12S - 1 words are enough",
        "10S words are enough", "12C words are asked for", "128F words are too few", "128F - 1 words are enough", "2 before 1", "3 before 2", "4 before 3",
        "5 before 4", "6 before 5", "a zero normal passes", "7 before 3", "7 before 4", "of 4 and 7 the lower place", "5 before 7", "6 before 7",
        "two zero components are enough", "the last component alone is looked at", "00800001 counts as zero", "00800000 is a normal", "the least numbers are a normal",
        "-0.0 is a normal", "the last corner without a normal", "place of 7 counted in slots", "place of 7 counted in its face", "its face for the place of 7",
        "faces of five are asked for normals", "7 in triangles alone", "a refusal returns S", "a refusal writes the answer list", "a refusal clears the work list",
    ],
    "lists and slots": [
        "S counts every face", "slots run over every face", "absent slots are left alone", "an absent slot begins with 1",
        "words past 12S are cleared", "the work list is left alone", "words past 128F are cleared",
        "128 words for faces of 3 and 4 alone", "a face of 5 is a triangle", "NaN as FFC00000", "orientation told backwards",
        "words 10 and 11 exchanged", "ten words a slot, two zeros", "an absent slot is told as single",
    ],
    "step 1, cuts": [
        "a tie is cut 1-3", "the longer texture diagonal", "positions decide first", "a texture tie is always cut 0-2",
        "a texture tie is always cut 1-3", "the second triangle first", "kept corners start at another",
    ],
    "step 2, degenerate": [
        "positions compared by bits", "first and last corner not compared", "first and second corner not compared",
        "second and last corner not compared", "degenerate by texture too", "degenerate where it has no area", "a quad of two degenerate triangles is marked",
        "a quad of one is not marked", "a quad is looked at whole",
    ],
    "step 3, tangents": [
        "orientation the other way round", "00800000 counts", "all but zero counts", "s and t without the sign",
        "no triangle is group_with_any", "group_with_any by area alone", "group_with_any where neither magnitude counts",
        "triangles of a quad may disagree", "the second triangle decides", "the first triangle decides", "of equal areas the second decides",
        "a group_with_any second decides", "magnitudes not divided by the area", "s and t exchanged", "a vector without direction is kept", "squared length zero passes",
        "squared length infinite passes", "squared length NaN passes", "no direction is not group_with_any", "group_with_any where neither s nor t has a direction",
    ],
    "step 4, welding": ["nothing is welded", "welded by nearness", "welded by comparison", "welded by position", "welded without normals", "welded without texture"],
    "step 5, links": [
        "no links", "sides of the same way are linked", "the last later side", "linked sides are linked again",
        "only the next side in order", "triangles in falling order",
    ],
    "step 6, groups": [
        "each corner is a group", "all round a corner is a group", "orientation is not looked at", "group_with_any never joins",
        "group_with_any keeps its orientation", "group_with_any starts groups", "a touched group_with_any turns again",
        "the side after the corner first", "groups from the last triangle",
    ],
    "step 7, sums": [
        "at the threshold too", "one cosine is enough", "s alone", "t alone", "cosines not projected", "the same face is not joined",
        "group_with_any is not joined", "the threshold is not looked at", "summed as met", "not weighted", "angle not projected",
        "group_with_any adds to the sum", "the sum keeps its length", "magnitudes not divided by the angles",
        "group_with_any triangles are counted", "the whole group is counted", "the member alone is counted", "faces are counted",
    ],
    "step 8, slots reached twice": [
        "equal ones are averaged", "equal by bits", "of equal ones the later stays", "the first stays", "the last stays", "the earlier orientation",
        "magnitudes not halved", "combined is told as single", "equal ones stay single", "the earlier count stays", "the later count stays",
        "counts of equal ones are not summed", "a triangle behind both is counted once",
    ],
    "step 9, copies": [
        "no copy to a degenerate corner", "the first present corner", "the last sound corner", "copied by position", "copied in marked quads too",
        "an absent copy is a frame of zeros", "the missing corner stays absent", "the missing corner by bits of all eight", "the missing corner by bits of its position",
        "3 for 4", "4 for 3", "a copy is told as what it copies", "a copied absent slot is told as copied", "a copied count is 0",
    ],
    "numbers": [
        "dot from the right", "products not rounded", "worked in double", "small results become zero", "large results stay the largest", "root rounded down",
        "angle of the C library", "cosine not cut to 1", "narrow angles by the old rule", "1/2 is narrow", "a narrow angle forgets the sign", "B is not doubled",
    ],
}


def bits(x):
    """The bits of a number, any NaN as 7FC00000."""
    return 0x7FC00000 if x != x else struct.unpack("<I", c_float(x))[0]


def number(w):
    return struct.unpack("<f", struct.pack("<I", w))[0]


class Mesh:
    """What is handed in, by words: sizes, three lists, a threshold; and the lengths of the two lists that are lent."""

    def __init__(self, sizes, positions, normals, texture, threshold, answer=None, work=None):
        self.sizes, self.positions, self.normals, self.texture, self.threshold = sizes, positions, normals, texture, threshold
        self.answer = SLOT_WORDS * self.slots() if answer is None else answer
        self.work = 128 * len(sizes) if work is None else work

    def slots(self):
        return sum(n for n in self.sizes if n in (3, 4))

    def corners(self):
        return sum(self.sizes)


class Slot:
    """A reading: two vectors, two magnitudes, orientation, where it came from, and the triangles that stood behind it."""

    there = True

    def __init__(self, s, t, ms, mt, way, origin, behind):
        self.s, self.t, self.ms, self.mt, self.way, self.origin, self.behind = s, t, ms, mt, way, origin, behind

    def numbers(self):
        return self.s, self.t, self.ms, self.mt

    def values(self):
        return (*self.s, *self.t, self.ms, self.mt)


class Triangle:
    """Three kept corners of a face: their numbers over all corners, and their slots."""

    def __init__(self, face, kept, corner, slot, missing):
        self.face, self.kept, self.missing = face, kept, missing
        self.corners = [corner + k for k in kept]
        self.slots = [slot + k for k in kept]
        self.broken = self.marked = self.any = self.way = False
        self.s = self.t = (0.0, 0.0, 0.0)
        self.ms = self.mt = 0.0
        self.link, self.group = [None] * 3, [None] * 3


class Numbers:
    """Arithmetic at single precision, one rounding an operation."""

    def __init__(self, slip):
        self.slip = slip
        if slip == "worked in double":
            self.r = lambda x: x
        elif slip == "small results become zero":
            self.r = lambda x: math.copysign(0.0, x) if abs(c_float(x).value) < MIN_NORMAL else c_float(x).value
        elif slip == "large results stay the largest":
            self.r = lambda x: math.copysign(LARGEST, x) if abs(c_float(x).value) == math.inf else c_float(x).value
        else:
            self.r = lambda x: c_float(x).value

    def add(self, u, v):
        r = self.r
        return (r(u[0] + v[0]), r(u[1] + v[1]), r(u[2] + v[2]))

    def sub(self, u, v):
        r = self.r
        return (r(u[0] - v[0]), r(u[1] - v[1]), r(u[2] - v[2]))

    def scale(self, k, v):
        r = self.r
        return (r(k * v[0]), r(k * v[1]), r(k * v[2]))

    def dot(self, u, v):
        r = self.r
        if self.slip == "products not rounded":
            return r(u[2] * v[2] + r(u[1] * v[1] + r(u[0] * v[0])))
        if self.slip == "dot from the right":
            return r(r(u[0] * v[0]) + r(r(u[1] * v[1]) + r(u[2] * v[2])))
        return r(r(r(u[0] * v[0]) + r(u[1] * v[1])) + r(u[2] * v[2]))

    def divide(self, x, y):
        if y == 0 or y != y:
            return math.nan if x == 0 or x != x or y != y else math.copysign(math.inf, x) * math.copysign(1, y)
        return self.r(x / y)

    def root(self, x):
        if x != x or x < 0:
            return math.nan
        y = self.r(math.sqrt(x))
        if self.slip == "root rounded down" and math.isfinite(y) and y * y > x:
            y = number(bits(y) - 1)
        return y

    def counts(self, x):
        if self.slip == "all but zero counts":
            return x != 0 and x == x
        if self.slip == "00800000 counts":
            return abs(x) >= MIN_NORMAL
        return abs(x) > MIN_NORMAL

    def length(self, v):
        return self.root(self.dot(v, v))

    def direction(self, v):
        """v at unit length, or None: no component counts, or the squared length is zero, infinite or NaN."""
        q = self.dot(v, v)
        passes = math.isfinite(q) and q != 0
        passes |= (self.slip == "squared length zero passes" and q == 0) or (self.slip == "squared length infinite passes" and math.isinf(q))
        passes |= self.slip == "squared length NaN passes" and q != q
        if passes and any(self.counts(x) for x in v):
            return self.scale(self.divide(1.0, self.length(v)), v)
        return None

    def unit(self, v):
        return self.direction(v) or (v if self.slip == "a vector without direction is kept" else (0.0, 0.0, 0.0))

    def flat(self, v, n):
        """v without its part along n, at unit length."""
        return self.unit(self.sub(v, self.scale(self.dot(n, v), n)))

    def angle(self, x):
        if x != x:
            return x
        if self.slip != "cosine not cut to 1":
            x = max(-1.0, min(1.0, x))
        elif abs(x) > 1:
            return math.nan
        if self.slip == "angle of the C library":
            return self.r(math.acos(x))
        a = self.amended(x)
        cut = max(0, a.bit_length() - 24)
        return self.r(float(a >> cut << cut) * TURN)

    def amended(self, x):
        """A of a cut cosine, by request E3 of document 02."""
        if abs(x) < 0.5 or (abs(x) == 0.5 and self.slip != "1/2 is narrow") or self.slip == "narrow angles by the old rule":
            return self.old(x)
        # the difference and the half are exact, and a root to double precision rounded again is the root rounded once
        b = self.old(self.r(math.sqrt((1.0 - abs(x)) / 2)))
        b = b if self.slip == "B is not doubled" else 2 * b
        return 2**30 - b if x > 0 and self.slip != "a narrow angle forgets the sign" else b

    @staticmethod
    def old(x):
        """A of a number from -1 to 1, by document 01's rule."""
        whole = math.trunc(x * 2**30)
        low, high = 0, 1023
        while low < high:
            k = (low + high + 1) // 2
            low, high = (k, high) if COSINES[k] >= whole else (low, k - 1)
        return 2**20 * low + 2**20 * (COSINES[low] - whole) // (COSINES[low] - COSINES[low + 1])


class Frames:
    """Steps 1 to 9 for an accepted mesh."""

    def __init__(self, mesh, slip=None):
        self.mesh, self.slip, self.n = mesh, slip, Numbers(slip)
        take = lambda ws, k: [tuple(number(w) for w in ws[k * i : k * i + k]) for i in range(len(ws) // k)]
        self.place, self.normal, self.texture = take(mesh.positions, 3), take(mesh.normals, 3), take(mesh.texture, 2)
        self.threshold = number(mesh.threshold)
        self.slots = [None] * (sum(n for n in mesh.sizes if self.has_slots(n)))
        faces = self.faces()
        triangles = [t for f in faces for t in f]
        self.sound = [t for t in triangles if not t.broken]
        self.broken = [t for t in triangles if t.broken]
        self.weld()
        self.link()
        self.walk()
        self.reach()
        self.copy()

    def on(self, slip):
        return self.slip == slip

    def has_slots(self, n):
        return n in (3, 4) or (n == 5 and self.on("a face of 5 is a triangle"))

    def faces(self):
        corner = slot = 0
        found = []
        for f, n in enumerate(self.mesh.sizes):
            if self.has_slots(n):
                found.append(self.face(f, n, corner, slot))
                slot += n
            corner += n
        return found

    def face(self, f, n, corner, slot):
        if n != 4:
            made = [Triangle(f, [0, 1, 2], corner, slot, None)]
        else:
            missing = [3, 1] if self.cut_02(corner) else [2, 0]
            if self.on("the second triangle first"):
                missing.reverse()
            made = [Triangle(f, self.kept(m), corner, slot, m) for m in missing]
        for t in made:
            self.judge(t)
        self.mark(made)
        for t in made:
            if not t.broken:
                self.tangents(t)
        if len(made) == 2 and not made[0].broken and not made[1].broken:
            self.agree(*made)
        return made

    def kept(self, m):
        k = {0: [1, 2, 3], 1: [0, 2, 3], 2: [0, 1, 3], 3: [0, 1, 2]}[m]
        return k[1:] + k[:1] if self.on("kept corners start at another") else k

    # step 1
    def cut_02(self, at):
        r = self.n.r
        tx = self.texture[at : at + 4]
        squares = []
        for a, b in ((2, 0), (3, 1)):
            u, v = r(tx[a][0] - tx[b][0]), r(tx[a][1] - tx[b][1])
            squares.append(r(r(u * u) + r(v * v)))
        if not self.on("positions decide first"):
            if squares[0] < squares[1]:
                return not self.on("the longer texture diagonal")
            if squares[0] > squares[1]:
                return self.on("the longer texture diagonal")
        p = self.place[at : at + 4]
        ways = [self.n.sub(p[a], p[b]) for a, b in ((2, 0), (3, 1))]
        d = [self.n.dot(v, v) for v in ways]
        if self.on("a texture tie is always cut 0-2"):
            return True
        if self.on("a texture tie is always cut 1-3"):
            return False
        return d[1] > d[0] if self.on("a tie is cut 1-3") else d[1] >= d[0]

    # step 2
    def judge(self, t):
        p = [self.place[c] for c in t.corners]
        same = (lambda a, b: [bits(x) for x in a] == [bits(x) for x in b]) if self.on("positions compared by bits") else (lambda a, b: a == b)
        pairs = {
            "first and last corner not compared": [(0, 1), (1, 2)],
            "first and second corner not compared": [(1, 2), (2, 0)],
            "second and last corner not compared": [(0, 1), (2, 0)],
        }.get(self.slip, [(0, 1), (1, 2), (2, 0)])
        if self.on("a quad is looked at whole") and t.missing is not None:
            base = t.corners[0] - t.kept[0]
            p, pairs = self.place[base : base + 4], [(a, b) for a in range(4) for b in range(a)]
        t.broken = any(same(p[a], p[b]) for a, b in pairs)
        if self.on("degenerate by texture too"):
            u = [self.texture[c] for c in t.corners]
            t.broken |= any(u[a] == u[b] for a, b in pairs)
        if self.on("degenerate where it has no area"):
            a, b = self.n.sub(p[1], p[0]), self.n.sub(p[2], p[0])
            t.broken |= all(a[i] * b[j] == a[j] * b[i] for i, j in ((0, 1), (1, 2), (2, 0)))

    def mark(self, made):
        if len(made) < 2:
            return
        broken = made[0].broken + made[1].broken
        marked = broken == 1 and not self.on("a quad of one is not marked")
        marked |= broken == 2 and self.on("a quad of two degenerate triangles is marked")
        for t in made:
            t.marked = marked

    # step 3
    def area(self, t):
        """The signed double area of a triangle's texture, and its differences."""
        r = self.n.r
        tx = [self.texture[c] for c in t.corners]
        d = [(r(tx[k][0] - tx[0][0]), r(tx[k][1] - tx[0][1])) for k in (1, 2)]
        return r(r(d[0][0] * d[1][1]) - r(d[0][1] * d[1][0])), d

    def tangents(self, t):
        n = self.n
        signed, d = self.area(t)
        p = [self.place[c] for c in t.corners]
        v = [n.sub(p[1], p[0]), n.sub(p[2], p[0])]
        s = n.sub(n.scale(d[1][1], v[0]), n.scale(d[0][1], v[1]))
        u = n.add(n.scale(-d[1][0], v[0]), n.scale(d[0][0], v[1]))
        if self.on("s and t exchanged"):
            s, u = u, s
        t.way = signed < 0 if self.on("orientation the other way round") else signed > 0
        t.any = True
        area = abs(signed)
        if n.counts(area):
            sign = 1.0 if t.way or self.on("s and t without the sign") else -1.0
            t.s, t.t = n.scale(sign, n.unit(s)), n.scale(sign, n.unit(u))
            over = 1.0 if self.on("magnitudes not divided by the area") else area
            t.ms, t.mt = n.divide(n.length(s), over), n.divide(n.length(u), over)
            counts = (n.counts(t.ms), n.counts(t.mt))
            t.any = not (any(counts) if self.on("group_with_any where neither magnitude counts") else all(counts))
            none = (n.direction(s) is None, n.direction(u) is None)
            t.any |= (all(none) if self.on("group_with_any where neither s nor t has a direction") else any(none)) and not self.on("no direction is not group_with_any")
            t.any &= not self.on("group_with_any by area alone")
        t.any &= not self.on("no triangle is group_with_any")

    def agree(self, a, b):
        if a.way == b.way or self.on("triangles of a quad may disagree"):
            return
        first, second = abs(self.area(a)[0]), abs(self.area(b)[0])
        larger = first > second if self.on("of equal areas the second decides") else first >= second
        if self.on("a group_with_any second decides"):
            keep = larger
        else:
            keep = b.any or larger
        keep = (keep or self.on("the first triangle decides")) and not self.on("the second triangle decides")
        if keep:
            b.way = a.way
        else:
            a.way = b.way

    # step 4
    def weld(self):
        m = self.mesh
        parts = [m.positions[3 * c : 3 * c + 3] + m.normals[3 * c : 3 * c + 3] + m.texture[2 * c : 2 * c + 2] for c in range(m.corners())]
        if self.on("welded by comparison"):
            parts = [[w if w != 0x80000000 else 0 for w in k] for k in parts]
        if self.on("welded by nearness"):
            parts = [[round(number(w) * 2**16) if math.isfinite(number(w)) else w for w in k] for k in parts]
        keep = {"welded by position": (0, 1, 2), "welded without normals": (0, 1, 2, 6, 7), "welded without texture": range(6)}.get(self.slip, range(8))
        first = {}
        for t in self.sound + self.broken:
            t.vertex = [first.setdefault(tuple(parts[c][i] for i in keep), c) for c in t.corners]
            if self.on("nothing is welded"):
                t.vertex = list(t.corners)

    # step 5
    def link(self):
        if self.on("no links"):
            return
        down = -1 if self.on("triangles in falling order") else 1
        sides = []
        for f, t in enumerate(self.sound):
            for e in range(3):
                a, b = t.vertex[e], t.vertex[(e + 1) % 3]
                sides.append((min(a, b), max(a, b), down * f, e))
        sides.sort()
        for i, (lo, hi, f, e) in enumerate(sides):
            a = self.sound[down * f]
            if a.link[e] is not None:
                continue
            found = None
            for lo2, hi2, g, k in sides[i + 1 :]:
                if (lo2, hi2) != (lo, hi):
                    break
                b = self.sound[down * g]
                opposite = a.vertex[e] == b.vertex[(k + 1) % 3] or self.on("sides of the same way are linked")
                if opposite and (b.link[k] is None or self.on("linked sides are linked again")):
                    found = (b, k)
                    if not self.on("the last later side"):
                        break
                if self.on("only the next side in order"):
                    break
            if found:
                b, k = found
                a.link[e], b.link[k] = b, a

    # step 6
    def walk(self):
        self.groups = []
        order = [(t, i) for t in self.sound for i in range(3)]
        if self.on("groups from the last triangle"):
            order = [(t, i) for t in reversed(self.sound) for i in range(3)]
        for t, i in order:
            if t.group[i] is not None or (t.any and not self.on("group_with_any starts groups")):
                continue
            g = {"id": len(self.groups), "vertex": t.vertex[i], "way": t.way, "members": [t]}
            self.groups.append(g)
            t.group[i] = g["id"]
            self.onward(t, i, g)
            if self.on("all round a corner is a group"):
                for u in self.sound:
                    if g["vertex"] in u.vertex:
                        self.enter(u, g)

    def onward(self, t, i, g):
        if self.on("each corner is a group"):
            return
        sides = ((i + 2) % 3, i)
        for e in reversed(sides) if self.on("the side after the corner first") else sides:
            if t.link[e] is not None:
                self.enter(t.link[e], g)

    def enter(self, t, g):
        i = t.vertex.index(g["vertex"])
        if t.group[i] is not None or (t.any and self.on("group_with_any never joins")):
            return
        untouched = t.group == [None] * 3 or self.on("a touched group_with_any turns again")
        if t.any and untouched and not self.on("group_with_any keeps its orientation"):
            t.way = g["way"]
        if t.way != g["way"] and not self.on("orientation is not looked at"):
            return
        g["members"].append(t)
        t.group[i] = g["id"]
        self.onward(t, i, g)

    # step 7
    def joined(self, a, b, n):
        if (a.any or b.any) and not self.on("group_with_any is not joined"):
            return True
        if a.face == b.face and not self.on("the same face is not joined"):
            return True
        if self.on("the threshold is not looked at"):
            return True
        flat = (lambda v: v) if self.on("cosines not projected") else (lambda v: self.n.flat(v, n))
        s = self.n.dot(flat(a.s), flat(b.s))
        t = self.n.dot(flat(a.t), flat(b.t))
        above = (lambda x: x >= self.threshold) if self.on("at the threshold too") else (lambda x: x > self.threshold)
        if self.on("one cosine is enough"):
            return above(s) or above(t)
        if self.on("s alone"):
            return above(s)
        if self.on("t alone"):
            return above(t)
        return above(s) and above(t)

    def contribution(self, t, vertex):
        i = t.vertex.index(vertex)
        n = self.normal[vertex]
        p = [self.place[t.vertex[(i + j) % 3]] for j in (1, 0, 2)]
        sides = [self.n.sub(p[0], p[1]), self.n.sub(p[2], p[1])]
        flat = self.n.unit if self.on("angle not projected") else (lambda v: self.n.flat(v, n))
        angle = self.n.angle(self.n.dot(flat(sides[0]), flat(sides[1])))
        if self.on("not weighted"):
            angle = 1.0
        r = self.n.r
        return angle, self.n.scale(angle, self.n.flat(t.s, n)), self.n.scale(angle, self.n.flat(t.t, n)), r(angle * t.ms), r(angle * t.mt)

    def sum(self, members, vertex):
        r = self.n.r
        total, s, t, ms, mt = 0.0, (0.0, 0.0, 0.0), (0.0, 0.0, 0.0), 0.0, 0.0
        for m in members:
            if m.any and not self.on("group_with_any adds to the sum"):
                continue
            angle, s1, t1, ms1, mt1 = self.contribution(m, vertex)
            s, t, ms, mt, total = self.n.add(s, s1), self.n.add(t, t1), r(ms + ms1), r(mt + mt1), r(total + angle)
        if not self.on("the sum keeps its length"):
            s, t = self.n.unit(s), self.n.unit(t)
        if total > 0 and not self.on("magnitudes not divided by the angles"):
            ms, mt = self.n.divide(ms, total), self.n.divide(mt, total)
        return s, t, ms, mt

    def behind(self, member, near, group):
        """Those that are not group_with_any, of a member's subgroup."""
        near = {"the whole group is counted": group["members"], "the member alone is counted": [member]}.get(self.slip, near)
        return [t for t in near if not t.any or self.on("group_with_any triangles are counted")]

    # steps 7 and 8
    def reach(self):
        place = {id(t): k for k, t in enumerate(self.sound)}
        for g in self.groups:
            n = self.normal[g["vertex"]]
            for a in g["members"]:
                near = [b for b in g["members"] if self.joined(a, b, n)]
                if not self.on("summed as met"):
                    near.sort(key=lambda t: place[id(t)])
                made = Slot(*self.sum(near, g["vertex"]), g["way"], SINGLE, self.behind(a, near, g))
                k = a.slots[a.group.index(g["id"])]
                self.slots[k] = made if self.slots[k] is None else self.combine(self.slots[k], made)

    def combine(self, old, new):
        way = old.way if self.on("the earlier orientation") else new.way
        by = (lambda v: [bits(x) for x in v]) if self.on("equal by bits") else (lambda v: v)
        equal = by(old.values()) == by(new.values())
        single = self.on("combined is told as single") or (equal and self.on("equal ones stay single"))
        return Slot(*self.merged(old, new, equal), way, SINGLE if single else COMBINED, self.behind_both(old, new, equal))

    def merged(self, old, new, equal):
        """The numbers of two readings that are combined."""
        if self.on("the first stays") or self.on("the last stays"):
            return (old if self.on("the first stays") else new).numbers()
        if equal and not self.on("equal ones are averaged"):
            return (new if self.on("of equal ones the later stays") else old).numbers()
        n, r = self.n, self.n.r
        half = 1.0 if self.on("magnitudes not halved") else 0.5
        s, t = n.unit(n.add(old.s, new.s)), n.unit(n.add(old.t, new.t))
        return s, t, r(half * r(old.ms + new.ms)), r(half * r(old.mt + new.mt))

    def behind_both(self, old, new, equal):
        """What stood behind two readings that are combined: one behind both is there twice."""
        if self.on("the earlier count stays") or (equal and self.on("counts of equal ones are not summed")):
            return old.behind
        if self.on("the later count stays"):
            return new.behind
        if self.on("a triangle behind both is counted once"):
            return old.behind + [t for t in new.behind if t not in old.behind]
        return old.behind + new.behind

    # step 9
    def copy(self):
        if not self.on("no copy to a degenerate corner"):
            for t in self.broken:
                if not t.marked or self.on("copied in marked quads too"):
                    for i in range(3):
                        self.copy_corner(t, i)
        for t in self.sound:
            if t.marked and not self.on("the missing corner stays absent"):
                self.copy_missing(t)

    def copy_corner(self, t, i):
        for b in reversed(self.sound) if self.on("the last sound corner") else self.sound:
            for j in (2, 1, 0) if self.on("the last sound corner") else (0, 1, 2):
                same = b.vertex[j] == t.vertex[i]
                if self.on("copied by position"):
                    same = self.place[b.corners[j]] == self.place[t.corners[i]]
                if same and not (self.on("the first present corner") and self.slots[b.slots[j]] is None):
                    self.slots[t.slots[i]] = self.taken(self.slots[b.slots[j]], FILLED if self.on("4 for 3") else COPIED)
                    return
        if self.slots[t.slots[i]] is None and self.on("an absent copy is a frame of zeros"):
            self.slots[t.slots[i]] = self.taken(None, COPIED)

    def taken(self, slot, origin):
        """A copy of a slot."""
        if slot is None:
            zeros = Slot((0.0, 0.0, 0.0), (0.0, 0.0, 0.0), 0.0, 0.0, False, origin, [])
            zeros.there = self.on("an absent copy is a frame of zeros")
            return zeros if zeros.there or self.on("a copied absent slot is told as copied") else None
        origin = slot.origin if self.on("a copy is told as what it copies") else origin
        return Slot(*slot.numbers(), slot.way, origin, [] if self.on("a copied count is 0") else slot.behind)

    def copy_missing(self, t):
        base, m = t.corners[0] - t.kept[0], self.mesh
        whole = lambda c: m.positions[3 * c : 3 * c + 3] + m.normals[3 * c : 3 * c + 3] + m.texture[2 * c : 2 * c + 2]
        gone = base + t.missing
        for k, c in zip(t.kept, t.corners):
            same = self.place[c] == self.place[gone]
            if self.on("the missing corner by bits of all eight"):
                same = whole(c) == whole(gone)
            if self.on("the missing corner by bits of its position"):
                same = whole(c)[:3] == whole(gone)[:3]
            if same:
                slot = t.slots[0] - t.kept[0]
                self.slots[slot + t.missing] = self.taken(self.slots[slot + k], COPIED if self.on("3 for 4") else FILLED)
                return


def is_bad(w, slip):
    """Whether a word is one that refusals 3 and 4 are about."""
    infinite, nan = w & 0x7FFFFFFF == 0x7F800000, w & 0x7FFFFFFF > 0x7F800000
    if slip in ("a NaN passes", "a NaN threshold passes"):
        return infinite
    if slip in ("an infinity passes", "an infinite threshold passes"):
        return nan
    return infinite or nan


def bad_corner(mesh, slip):
    """The place that refusal 4 gives, or None."""
    corner = slot = 0
    found = []
    for f, n in enumerate(mesh.sizes):
        looked_at = n in (3, 4) or slip == "faces of every size are looked at"
        for i in range(n) if looked_at else ():
            c = corner + i
            words = [] if slip == "positions are not looked at" else mesh.positions[3 * c : 3 * c + 3]
            words = words + ([] if slip == "normals are not looked at" else mesh.normals[3 * c : 3 * c + 3])
            words = words + ([] if slip == "texture is not looked at" else mesh.texture[2 * c : 2 * c + 2])
            if any(is_bad(w, slip) for w in words):
                place = {"its place counted in slots": slot + i, "its place counted in its face": i, "its face for its place": f}
                found.append(place.get(slip, c))
        corner += n
        slot += n if n in (3, 4) else 0
    return (found[-1] if slip == "the last bad corner" else found[0]) if found else None


def is_bare(normal, slip):
    """Whether a normal is one that refusal 7 is about: its three components count as zero."""
    edge = {"00800001 counts as zero": 0x00800001, "00800000 is a normal": 0x007FFFFF, "the least numbers are a normal": 0}.get(slip, 0x00800000)
    zeros = [w & 0x7FFFFFFF <= edge and not (slip == "-0.0 is a normal" and w == 0x80000000) for w in normal]
    if slip == "the last component alone is looked at":
        return zeros[2]
    return sum(zeros) >= (2 if slip == "two zero components are enough" else 3)


def bare_corner(mesh, slip):
    """The place that refusal 7 gives, or None."""
    asked = {"a zero normal passes": (), "faces of five are asked for normals": (3, 4, 5), "7 in triangles alone": (3,)}.get(slip, (3, 4))
    corner = slot = 0
    found = []
    for f, n in enumerate(mesh.sizes):
        for i in range(n) if n in asked else ():
            c = corner + i
            if is_bare(mesh.normals[3 * c : 3 * c + 3], slip):
                place = {"place of 7 counted in slots": slot + i, "place of 7 counted in its face": i, "its face for the place of 7": f}
                found.append(place.get(slip, c))
        corner += n
        slot += n if n in (3, 4) else 0
    return (found[-1] if slip == "the last corner without a normal" else found[0]) if found else None


def verdict(mesh, slip):
    """The refusal, as its number and place, or None."""
    f, c, s = len(mesh.sizes), mesh.corners(), mesh.slots()
    limit = MOST_FACES + {LIMIT_REFUSED: -1, LIMIT_EXCEEDED: 1}.get(slip, 0)
    wrong = (lambda k, n: k < n) if slip == "longer lists pass" else (lambda k, n: k != n)
    lengths = {"positions may have any length": (0, 1, 1), "normals may have any length": (1, 0, 1), "texture may have any length": (1, 1, 0)}.get(slip, (1, 1, 1))
    two = any(on and wrong(len(l), n) for on, l, n in zip(lengths, (mesh.positions, mesh.normals, mesh.texture), (3 * c, 3 * c, 2 * c)))
    three = is_bad(mesh.threshold, slip if "threshold" in (slip or "") else None)
    four = bad_corner(mesh, None if "threshold" in (slip or "") else slip)
    seven = bare_corner(mesh, slip)
    full = SLOT_WORDS * s
    room = {"12S words are too few": full + 1, "12S - 1 words are enough": full - 1, "10S words are enough": 10 * s, "12C words are asked for": SLOT_WORDS * c}.get(slip, full)
    desk = {"128F words are too few": 128 * f + 1, "128F - 1 words are enough": 128 * f - 1}.get(slip, 128 * f)
    rows = [
        (1, f > limit or (f == 0 and slip == "no faces are refused"), 0),
        (2, two, 0),
        (3, three, 0),
        (4, four is not None, four),
        (7, seven is not None, seven),
        (5, mesh.answer < room, 0),
        (6, mesh.work < desk, 0),
    ]
    if slip == "of 4 and 7 the lower place" and seven is not None and four is not None and seven < four:
        slip = "7 before 4"
    if " before " in (slip or ""):
        later, sooner = (int(k) for k in slip.split(" before "))
        row = next(row for row in rows if row[0] == later)
        rows.remove(row)
        rows.insert([k for k, _, _ in rows].index(sooner), row)
    return next(((k, place) for k, applies, place in rows if applies), None)


def words_of(slot, slip):
    """The twelve words of a slot."""
    if slot is None:
        words = [0] * SLOT_WORDS
        words[0] = int(slip == "an absent slot begins with 1")
        words[10] = int(slip == "an absent slot is told as single")
        return words
    words = [bits(x) for x in slot.values()]
    if slip == "NaN as FFC00000":
        words = [0xFFC00000 if w == 0x7FC00000 else w for w in words]
    way = slot.way != (slip == "orientation told backwards")
    behind = len({t.face for t in slot.behind}) if slip == "faces are counted" else len(slot.behind)
    last = {"words 10 and 11 exchanged": [behind, slot.origin], "ten words a slot, two zeros": [0, 0]}.get(slip, [slot.origin, behind])
    return [int(slot.there), *words, int(way), *last]


def outcome(mesh, slip=None):
    """Number, place, slots, the answer list and the work list after the call."""
    answer = [(ANSWER_BASE + i) % 2**32 for i in range(mesh.answer)]
    work = [(WORK_BASE + i) % 2**32 for i in range(mesh.work)]
    no = verdict(mesh, slip)
    if no is not None:
        if slip == "a refusal writes the answer list":
            answer = [0] * len(answer)
        if slip == "a refusal clears the work list":
            work = [0] * len(work)
        return (*no, mesh.slots() if slip == "a refusal returns S" else 0, answer, work)
    slots = Frames(mesh, slip).slots
    at = 0
    for n in mesh.sizes:
        here = n in (3, 4) or (n == 5 and slip == "a face of 5 is a triangle")
        for _ in range(n if here else 0):
            slot = slots.pop(0)
            if slot is not None or slip != "absent slots are left alone":
                answer[at : at + SLOT_WORDS] = words_of(slot, slip)
            at += SLOT_WORDS
        if not here and slip == "slots run over every face":
            at += SLOT_WORDS * n
    if slip == "words past 12S are cleared":
        answer[SLOT_WORDS * mesh.slots() :] = [0] * (len(answer) - SLOT_WORDS * mesh.slots())
    faces = sum(n in (3, 4) for n in mesh.sizes) if slip == "128 words for faces of 3 and 4 alone" else len(mesh.sizes)
    cleared = {"the work list is left alone": 0, "words past 128F are cleared": len(work)}.get(slip, 128 * faces)
    work[:cleared] = [0] * cleared
    count = mesh.corners() if slip == "S counts every face" else mesh.slots()
    return (0, 0, count, answer, work)


def shows(mesh, right, slip):
    """Whether the call would answer otherwise with this slip."""
    try:
        return outcome(mesh, slip) != right
    except (IndexError, ValueError, OverflowError):
        return True
