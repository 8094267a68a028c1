"""The meshes of `replay`: small ones, each made for a sentence of document 01. Used by tools/replay.py.

`all_meshes()` gives (group, what it shows, mesh) in the order of document 01. A number is written as a number or as its bits."""
import math
import random
import struct

from plain import GROUPS, MOST_FACES, Mesh

UP, EAST = (0, 0, 1), (1, 0, 0)
NAN, INF, MINUS_INF, MINUS_0, LEAST, MOST = "7FC00000", "7F800000", "FF800000", "80000000", "00000001", "7F7FFFFF"


def word(x):
    """The bits of a number, given as a number or as its bits in hexadecimal."""
    return int(x, 16) if isinstance(x, str) else struct.unpack("<I", struct.pack("<f", x))[0]


def mesh(faces, threshold=-1, answer=0, work=0):
    """A mesh of faces, each a list of corners (position, normal, texture); lent are so many words more than are needed."""
    corners = [c for f in faces for c in f]
    lists = [[word(x) for c in corners for x in c[k]] for k in range(3)]
    m = Mesh([len(f) for f in faces], *lists, word(threshold))
    m.answer += answer
    m.work += work
    return m


def corners(places, texture, normal=UP):
    """A face: positions and texture coordinates, one normal."""
    return [(p, normal, t) for p, t in zip(places, texture)]


def change(face, corner, part, place, x):
    """The face with one number of one corner changed: part 0 positions, 1 normals, 2 texture."""
    face = list(face)
    parts = [list(p) for p in face[corner]]
    parts[part][place] = x
    face[corner] = tuple(tuple(p) for p in parts)
    return face


ONE = corners([(0, 0, 0), (1, 0, 0), (0, 1, 0)], [(0, 0), (1, 0), (0, 1)])
BESIDE = corners([(1, 0, 0), (1, 1, 0), (0, 1, 0)], [(1, 0), (1, 1), (0, 1)])
MIRRORED = corners([(0, 0, 0), (1, 0, 0), (0, 1, 0)], [(0, 0), (-1, 0), (0, 1)])
BLANK = corners([(0, 0, 0), (1, 0, 0), (0, 1, 0)], [(0, 0), (0, 0), (0, 0)])
SQUARE = [(0, 0, 0), (1, 0, 0), (1, 1, 0), (0, 1, 0)]
QUAD = corners(SQUARE, [(0, 0), (1, 0), (1, 1), (0, 1)])


def raised(*heights):
    """The unit square with its corners at these heights."""
    return [(x, y, z) for (x, y, _), z in zip(SQUARE, heights)]


def nth(k):
    """A face of any size, whose numbers no frame may depend on."""
    return [((i, 2 * i, 1), UP, (i, 1)) for i in range(k)]


def refusals():
    """Each refusal alone, its borders, its place, and which comes first."""
    many = lambda n, **lent: Mesh([0] * n, [], [], [], word(-1), **lent)
    most, more = f"{MOST_FACES:,}", f"{MOST_FACES + 1:,}"
    yield f"{more} faces of size 0: 1", many(MOST_FACES + 1, work=40)
    yield f"{most} faces of size 0 and a short work list: 6 and not 1", many(MOST_FACES, work=40)
    m = many(MOST_FACES + 1, work=40)
    m.positions = [word(1.0)]
    yield f"{more} faces and a position too many: 1 comes before 2", m
    m = many(MOST_FACES, work=8)
    m.normals = [0]
    yield f"{most} faces and a normal too many: 2", m
    m = many(MOST_FACES + 1, work=3)
    m.threshold, m.texture = word(NAN), [0]
    yield f"{more} faces, a texture coordinate too many, threshold NaN: 1", m
    yield "no face, empty lists: accepted", mesh([])
    yield "no face, lists lent: accepted, nothing is altered", mesh([], answer=5, work=6)
    m = mesh([], answer=2)
    m.texture = [0, 0]
    yield "no face and texture coordinates: 2", m
    m = mesh([])
    m.threshold = word(INF)
    yield "no face and an infinite threshold: 3", m
    for name in ("positions", "normals", "texture"):
        for more in (-1, 1, 3):
            m = mesh([ONE], answer=1, work=1)
            l = getattr(m, name)
            setattr(m, name, l[:more] if more < 0 else l + [0] * more)
            yield f"{name} {'one short' if more < 0 else f'{more} too long'}: 2", m
    m = mesh([ONE, nth(5)])
    m.positions, m.normals, m.texture = m.positions[:9], m.normals[:9], m.texture[:6]
    yield "lists for the triangle alone, beside a face of 5: 2", m
    for t in (NAN, INF, MINUS_INF, "7F800001", "FFFFFFFF"):
        yield f"threshold {t}: 3", mesh([ONE], t)
    for t in (MOST, "FF7FFFFF", LEAST, MINUS_0):
        yield f"threshold {t}: accepted", mesh([ONE, BESIDE], t)
    for part, k in ((0, 3), (1, 3), (2, 2)):
        for i in range(k):
            x = (NAN, INF, MINUS_INF, "FFC00001")[(part + i) % 4]
            yield f"{x} in number {i} of {('a position', 'a normal', 'a texture coordinate')[part]}: 4", mesh([change(ONE, (part + i) % 3, part, i, x)], answer=3)
    yield "NaN in the fourth corner of a quad: 4 at 3", mesh([change(QUAD, 3, 2, 1, NAN)])
    yield "two bad corners: the lower", mesh([change(change(ONE, 2, 0, 0, NAN), 1, 2, 0, INF)])
    yield "a bad position after a bad texture coordinate: the lower corner", mesh([change(ONE, 1, 2, 1, NAN), change(BESIDE, 0, 0, 0, NAN)])
    yield "behind a face of 5: the place is counted over all corners", mesh([nth(5), change(ONE, 1, 1, 2, NAN)])
    yield "behind faces of 0, 1, 2 and 6: over all corners", mesh([[], nth(1), nth(2), nth(6), change(QUAD, 2, 0, 1, INF)])
    yield "NaN in a face of 5 alone: accepted", mesh([change(nth(5), 2, 0, 0, NAN), ONE])
    yield "NaN in faces of 1, 2 and 6 alone: accepted", mesh([change(nth(1), 0, 2, 0, NAN), ONE, change(nth(2), 1, 1, 1, INF), change(nth(6), 5, 0, 2, NAN)])
    yield "NaN in a face of 5 and in the triangle behind it: the triangle's corner", mesh([change(nth(5), 0, 0, 0, NAN), change(ONE, 0, 0, 0, NAN)])
    yield "the largest numbers of binary32: accepted", mesh([change(change(ONE, 1, 0, 0, MOST), 2, 2, 1, "FF7FFFFF")])
    for more in (-1, -6, -36, 7):
        yield f"answer list of 12S {'+' if more > 0 else '-'} {abs(more)} words: {'accepted' if more > 0 else 5}", mesh([ONE], answer=more)
    for more in (-1, -128, 9):
        yield f"work list of 128F {'+' if more > 0 else '-'} {abs(more)} words: {'accepted' if more > 0 else 6}", mesh([ONE], work=more)
    yield "answer list of 12S words beside a face of 5: accepted", mesh([ONE, nth(5)])
    yield "work list of 128 words for a triangle and a face of 5: 6", mesh([ONE, nth(5)], work=-128)
    yield "work list of 128F - 1 words for two faces: 6", mesh([ONE, QUAD], work=-1)
    yield "both lists short: 5", mesh([ONE], answer=-1, work=-1)
    yield "both lists of no words: 5", mesh([ONE, QUAD], answer=-84, work=-256)
    yield "a bad corner and a short answer list: 4", mesh([change(ONE, 0, 0, 0, NAN)], answer=-1)
    yield "a bad corner and short lists: 4", mesh([ONE, change(QUAD, 0, 0, 0, INF)], answer=-1, work=-1)
    yield "a bad corner and a short work list: 4", mesh([change(ONE, 2, 0, 0, NAN)], work=-1)
    yield "a bad threshold and a bad corner: 3", mesh([change(ONE, 0, 0, 0, NAN)], NAN)
    yield "an infinite threshold and a bad corner: 3", mesh([ONE, change(BESIDE, 1, 2, 1, INF)], MINUS_INF)
    yield "a bad threshold and short lists: 3", mesh([ONE], INF, answer=-1, work=-1)
    m = mesh([ONE], NAN)
    m.normals = m.normals[:-1]
    yield "a short list and a bad threshold: 2", m
    m = mesh([change(ONE, 0, 0, 0, NAN)], NAN, answer=-1, work=-1)
    m.texture = m.texture + [0]
    yield "everything from 2 to 6 but 7: 2", m
    yield from absent_normals()


def bared(face, corner, normal=(0, 0, 0)):
    """The face with another normal at one corner, none unless said."""
    return [(p, normal if i == corner else n, t) for i, (p, n, t) in enumerate(face)]


def absent_normals():
    """Request E4: refusal 7, its borders, its place, and what it comes before and after."""
    least, minus_least = "00800000", "80800000"
    for k in range(3):
        yield f"sample 1 without a normal at corner {k}: 7", mesh([bared(ONE, k)], answer=k)
    without = lambda face: [(p, (0, 0, 0), t) for p, _, t in face]
    yield "sample 1 without any normal: 7 at 0", mesh([without(ONE)])
    yield "two triangles without any normal: 7 at 0", mesh([without(ONE), without(BESIDE)])
    yield "no normal at 1, at 2 and in the face behind: the lowest", mesh([bared(bared(BESIDE, 2), 1), bared(ONE, 0)])
    for n in ((MINUS_0, 0, MINUS_0), (LEAST, 0, 0), (0, "807FFFFF", 0), (least, minus_least, least), (0, 0, minus_least), (0, 0, MINUS_0), (MINUS_0, least, 0)):
        yield f"a normal of {n[0]}, {n[1]}, {n[2]}: 7", mesh([bared(ONE, 1, n)])
    for k in range(3):
        n = tuple("00800001" if i == k else (least, MINUS_0, minus_least)[i] for i in range(3))
        yield f"a normal of {n[0]}, {n[1]}, {n[2]}: accepted", mesh([bared(ONE, 1, n)])
    yield "a normal of 80800001 and zeros: accepted", mesh([bared(BESIDE, 0, ("80800001", 0, MINUS_0)), ONE])
    yield "no normal in the fourth corner of a quad: 7 at 3", mesh([bared(QUAD, 3)])
    yield "no normals in the quad behind a triangle: 7 at 4", mesh([ONE, bared(bared(QUAD, 1), 3)])
    yield "no normal behind a face of 5: the place is counted over all corners", mesh([nth(5), bared(ONE, 2)])
    yield "no normal behind faces of 0, 1, 2 and 6: over all corners", mesh([[], nth(1), nth(2), nth(6), bared(QUAD, 1)])
    yield "no normals in a face of 5 alone: accepted", mesh([without(nth(5)), ONE])
    yield "no normals in a face of 5 and in the triangle behind it: the triangle's corner", mesh([without(nth(5)), bared(ONE, 1)])
    yield "no normal in a face of 5 between two triangles: accepted", mesh([ONE, bared(nth(5), 0), BESIDE])
    yield "no normals in faces of 1, 2 and 6 alone: accepted", mesh([bared(nth(1), 0), bared(nth(2), 1), ONE, bared(nth(6), 5)], answer=1)
    yield "no normal at 0 and a NaN at 5: 4 at 5", mesh([bared(ONE, 0), change(BESIDE, 2, 0, 0, NAN)])
    yield "no normal at 3 and an infinity at 9, behind a face of 5: 4 at 9", mesh([bared(QUAD, 3), nth(5), change(ONE, 0, 1, 2, MINUS_INF)])
    yield "a NaN at 0 and no normal at 5: 4 at 0", mesh([change(ONE, 0, 2, 0, NAN), bared(BESIDE, 2)])
    yield "no normal at 1, and at 2 a NaN in a normal of zeros: 4 at 2", mesh([change(bared(bared(ONE, 1), 2), 2, 1, 0, NAN)])
    yield "a NaN in a face of 5 and no normal in a triangle: 7", mesh([change(nth(5), 4, 1, 0, NAN), bared(ONE, 0)])
    yield "no normal and a bad threshold: 3", mesh([bared(ONE, 0)], NAN)
    yield "no normal and an infinite threshold: 3", mesh([ONE, bared(BESIDE, 2)], INF)
    yield "no normal and a short answer list: 7", mesh([bared(ONE, 1)], answer=-1)
    yield "no normal and a short work list: 7", mesh([bared(ONE, 2)], work=-1)
    yield "no normal and short lists: 7", mesh([ONE, bared(QUAD, 0)], answer=-84, work=-256)
    yield "no normal in a quad and an answer list of 12S - 12 words: 7", mesh([bared(QUAD, 2)], answer=-12)
    m = mesh([bared(ONE, 0)])
    m.texture = m.texture[:-1]
    yield "no normal and a short list: 2", m
    m = mesh([bared(ONE, 0)], NAN, answer=-1, work=-1)
    m.positions = m.positions + [word(NAN)]
    yield "everything from 2 to 7 but 4: 2", m


def lists():
    """Which words are written and which are left alone; faces of other sizes."""
    yield "document 01's sample 1", mesh([ONE])
    yield "document 01's sample 2", mesh([MIRRORED])
    yield "document 01's sample 3: 36 zero words", mesh([BLANK])
    yield "sample 3 in longer lists: absent slots are written", mesh([BLANK], answer=11, work=5)
    yield "sample 1 in longer lists: words past 12S and 128F stay", mesh([ONE], answer=13, work=17)
    yield "sizes 5, 2 and 0: S is 0", mesh([nth(5), nth(2), []], answer=4, work=3)
    for k in (0, 1, 2, 5, 6, 255):
        yield f"one face of {k}: no slot, its 128 words are cleared", mesh([nth(k)], answer=2, work=2)
    yield "a triangle between faces of 5 and 2", mesh([nth(5), ONE, nth(2)], answer=3, work=3)
    yield "a face of 5 between two triangles: slots run on", mesh([ONE, nth(5), BESIDE], answer=72)
    yield "faces of 1 and 0 before a quad and a triangle", mesh([nth(1), [], QUAD, MIRRORED], answer=20)
    five = ONE + BESIDE[:2]
    yield "a face of 5 with the triangle's own corners changes nothing", mesh([five, ONE], answer=50)
    yield "a face of 6 that would link two triangles", mesh([ONE, QUAD[:2] + QUAD, BESIDE])
    yield "an absent slot beside present ones", mesh([ONE, BLANK, BESIDE], answer=1)
    far = corners([(5, 5, 5), (6, 5, 5), (5, 6, 5)], [(0, 0), (0, 0), (0, 0)])
    yield "a triangle without texture, away from all: absent", mesh([ONE, far], answer=9)


def cuts():
    """Bent quads, so that the cut is seen in the frames."""
    tie = [(0, 0), (1, 0), (1, 1), (0, 1)]
    bent = raised(0, 0.5, 1, 1.5)
    yield "square texture, equal position diagonals: 0-2", mesh([corners(bent, tie)])
    for k in (1, 2, 3):
        yield f"square texture, equal position diagonals, from corner {k}", mesh([corners(bent[k:] + bent[:k], tie[k:] + tie[:k])])
    yield "square texture, 1-3 shorter in space", mesh([corners(raised(0.5, 0, 0, 0), tie)])
    yield "square texture, 0-2 shorter in space", mesh([corners(raised(0, 0.5, 0, 0), tie)])
    yield "square texture, 1-3 shorter by the last bit", mesh([corners([(0, 0, 0), (1, 0, 0.25), ("3F800001", 1, 0), (0, 1, 0.25)], tie)])
    for name, t in (("0-2", [(0.25, 0), (1, 0), (1, 0.75), (0, 1)]), ("1-3", [(0, 0), (0.75, 0.25), (1, 1), (0, 1)])):
        yield f"texture diagonal {name} shorter", mesh([corners(bent, t)])
        yield f"texture diagonal {name} shorter, the other one in space", mesh([corners(raised(0.75, 0, 0, 0) if name == "0-2" else raised(0, 0.75, 0, 0), t)])
    yield "texture diagonals differ by the last bit", mesh([corners(bent, [(0, 0), (1, 0), ("3F800001", 1), (0, 1)])])
    wide = [(0, 0), (2.0**65, 0), (2.0**65, 2.0**-10), (0, 2.0**-10)]
    yield "texture diagonals whose squares are beyond the numbers: a tie, 1-3 shorter in space", mesh([corners(raised(0.5, 0, 0, 0), wide)])
    huge = [(x * 1e20, y * 1e20, z * 1e20) for x, y, z in raised(0.5, 0, 0, 0)]
    yield "position diagonals whose squares are beyond the numbers: a tie, 0-2", mesh([corners(huge, [(u * 1e-5, v * 1e-5) for u, v in tie])])
    for k in range(2):
        quads = [corners(bent, tie), corners([(x + 1, y, z) for x, y, z in raised(0.5, 1, 0, 1.5)], [(u + 1, v) for u, v in tie])]
        yield f"two quads, both tied{', the other first' if k else ''}", mesh(quads if k == 0 else quads[::-1], 0.5)
    kite = [(0, 0, 0), (2, 0, 1), (3, 3, 0), (0, 2, 1)]
    yield "a kite, texture a kite", mesh([corners(kite, [(0, 0), (2, 0), (3, 3), (0, 2)])])
    yield "a kite, texture a kite the other way", mesh([corners(kite, [(0, 0), (1, 0), (0.5, 0.5), (0, 1)])])


def degenerate():
    """Triangles and quads with equal positions."""
    for a, b in ((0, 1), (1, 2), (0, 2)):
        f = list(ONE)
        f[b] = (f[a][0], UP, f[b][2])
        yield f"corners {a} and {b} at one place: degenerate", mesh([f, ONE])
        g = list(ONE)
        g[b] = (tuple(MINUS_0 if x == 0 else x for x in g[a][0]), UP, g[b][2])
        yield f"corners {a} and {b} at one place but for signs of zero: degenerate", mesh([g, ONE])
    yield "document 01's sample 4: (0,0,0) and (-0,0,0): degenerate, not welded", mesh([ONE, corners([(0, 0, 0), (MINUS_0, 0, 0), (5, 5, 0)], [(0, 0), (0, 0), (0, 0)])])
    for a, b in ((0, 1), (1, 2), (0, 2)):
        t = [(0, 0), (1, 0), (0, 1)]
        t[b] = t[a]
        yield f"texture of {a} and {b} at one place: sound, group_with_any", mesh([corners([p for p, _, _ in ONE], t), BESIDE])
    yield "three corners on a line, beside a triangle: sound", mesh([corners([(0, 0, 0), (1, 1, 1), (2, 2, 2)], [(0, 0), (1, 0), (0, 1)]), corners([(0, 0, 0), (2, 2, 2), (0, 3, 1)], [(0, 0), (0, 1), (-1, 1)])])
    yield "three corners on a line: sound", mesh([corners([(0, 0, 0), (1, 0, 0), (2, 0, 0)], [(0, 0), (1, 0), (0, 1)])])
    bent = raised(0.5, 0, 0.25, 0)
    for texture in ([(0, 0), (1, 0), (1, 1), (0, 1)], [(0.25, 0), (1, 0), (1, 0.75), (0, 1)], [(0, 0), (0.75, 0.25), (1, 1), (0, 1)]):
        for a in range(4):
            for b in range(a + 1, 4):
                p = list(bent)
                p[b] = p[a]
                if (a, b, texture[0][0]) not in ((0, 3, 0.25), (1, 2, 0.25), (0, 1, 0.25)):
                    yield f"a quad with corners {a} and {b} at one place", mesh([corners(p, texture)])
    p = [(0, 0, 0), (MINUS_0, 0, MINUS_0), (1, 1, 0), (0, 1, 0)]
    yield "a quad whose first two corners differ in signs of zero: marked", mesh([corners(p, [(0, 0), (1, 0), (1, 1), (0, 1)])])


def no_direction():
    """Request E6: vectors whose squared length is zero, infinite or NaN, in step 3, in projections, on sides and in sums."""
    plain = [(0, 0), (1, 0), (0, 1)]
    for x in (1e20, -1e20):
        yield f"s {x:g} long, its square infinite: group_with_any, absent", mesh([corners([(0, 0, 0), (x, 0, 0), (0, 1, 0)], plain)])
        yield f"t {x:g} long, its square infinite: group_with_any, absent", mesh([corners([(0, 0, 0), (1, 0, 0), (0, x, 0)], plain)])
    yield "s beyond the numbers: infinite, and its square too", mesh([corners([(0, 0, 0), (1e30, 0, 0), (0, 1, 0)], [(0, 0), (1, 0), (0, 1e10)])])
    far = corners([(0, 0, 0), (1e20, 0, 0), (0, 1, 0)], plain)
    yield "s without direction beside a mirrored face: it takes that one's orientation", mesh([far, corners([(0, 0, 0), (0, 1, 0), (-1, 0, 0)], [(0, 0), (0, 1), (1, 0)])])
    yield "s without direction beside a plain face", mesh([far, corners([(0, 0, 0), (0, 1, 0), (-1, 0, 0)], [(0, 0), (0, 1), (-1, 0)])])
    yield "a quad whose larger second triangle has no s, the other way: the first decides", mesh([corners([(0, 0, 0), (1, 0, 0), (0, 1, 0), (1e20, 1, 0)], [(0, 0), (1, 0), (0, 1), (3, 1)])])
    turned = [(0, 0, 0), (1, 1, 0), (-1, 1, 0)]
    for n in ((1e20, 0, 0), (-1e20, 1e20, 1), (3e38, 3e38, 0), (3e38, -3e38, 0), (-3e38, -3e38, MINUS_0), (3e38, 3e38, 3e38)):
        yield f"normals of {n[0]}, {n[1]}, {n[2]}: projections without direction", mesh([corners(turned, plain, n)])
    for n in ((1, 1e-30, 0), (1, -1e-24, 1e-24), (1, 1e-22, 0), (1, "1B000000", 0)):
        yield f"a projection that leaves {n[1]} and {n[2]}: squared length zero, or as small", mesh([corners([p for p, _, _ in ONE], plain, n)])
    yield "sides of 1e20 beside small texture: the angle of cosine 0", mesh([corners([(0, 0, 0), (1e20, 0, 0), (0, 3e20, 0)], [(0, 0), (1e-10, 0), (0, 1e-10)])])
    yield "sides of 1e-23 beside large texture", mesh([corners([(0, 0, 0), (1e-23, 0, 0), (0, 3e-23, 0)], [(0, 0), (1e10, 0), (0, 1e10)])])


def tangents():
    """Orientation, what counts, quads that disagree."""
    yield "a mirrored texture beside a plain one", mesh([ONE, corners([(1, 0, 0), (1, 1, 0), (0, 1, 0)], [(1, 0), (0, 0), (0, 1)])])
    yield "texture turned by a quarter", mesh([corners([p for p, _, _ in ONE], [(0, 0), (0, 1), (-1, 0)])])
    yield "texture twice as wide", mesh([corners([p for p, _, _ in ONE], [(0, 0), (2, 0), (0, 0.5)])])
    for a, area in (("20000000", "00800000"), ("20000001", "00800001"), ("1FFFFFFE", "007FFFFF"), ("A0000000", "-00800000"), ("A0000001", "-00800001")):
        yield f"double area of the texture {area}", mesh([corners([p for p, _, _ in ONE], [(0, 0), (a, 0), (0, "20000000")])])
    for a in ("20000000", "20000001"):
        at = f"0080000{a[-1]}"
        yield f"magnitude of s {at}", mesh([corners([(0, 0, 0), (a, 0, 0), (0, 1, 0)], [(0, 0), (2.0**63, 0), (0, 1)])])
        yield f"magnitude of t {at}", mesh([corners([(0, 0, 0), (1, 0, 0), (0, a, 0)], [(0, 0), (1, 0), (0, 2.0**63)])])
    for e in ("1F800000", "1F800001", "00800000", "00800001", "00800003"):
        yield f"positions of size {e}: what counts of vectors and magnitudes", mesh([corners([(0, 0, 0), (e, 0, 0), (0, e, 0)], [(0, 0), (1, 0), (0, 1)]), ONE])
    yield "s of size 00800000, t of size 1", mesh([corners([(0, 0, 0), ("00800000", 0, 0), (0, 1, 0)], [(0, 0), (1, 0), (0, 1)])])
    yield "t of size 00800000, s of size 1", mesh([corners([(0, 0, 0), (1, 0, 0), (0, "00800000", 0)], [(0, 0), (1, 0), (0, 1)])])
    yield "s of size 00800001, t of size 1", mesh([corners([(0, 0, 0), ("00800001", 0, 0), (0, 1, 0)], [(0, 0), (1, 0), (0, 1)])])
    yield "s of no size: group_with_any, and its neighbour's orientation", mesh([corners([(0, 0, 0), (2, 0, 0), (1, 0, 0)], [(0, 0), (2, 0), (1, 1)]), corners([(2, 0, 0), (0, 0, 0), (1, -1, 0)], [(2, 0), (0, 0), (1, -1)])])
    yield "a group_with_any second of larger area, the other way: the first stays", mesh([corners([(0, 0, 0), (0, 1, 0), (2, 0, 0), (1, 0, 0)], [(0, 0), (-1, 0), (0, 2), (-3, 1)])])
    yield "a group_with_any second of larger area, mirrored", mesh([corners([(0, 0, 0), (0, 1, 0), (2, 0, 0), (1, 0, 0)], [(0, 0), (1, 0), (0, 2), (3, 1)])])
    for n in ((1, "00100000", 0), (1, 0, "807FFFFF"), (1, "00800000", "80400000"), (1, "00800001", 0)):
        yield f"a projection that leaves no more than {n[1]} and {n[2]}", mesh([corners([p for p, _, _ in ONE], [(0, 0), (1, 0), (0, 1)], n)])
    yield from no_direction()
    crossed = [(0, 0), (1, 0), (0, 1), (1, 1)]
    yield "a quad whose texture crosses: equal areas, the first decides", mesh([corners(SQUARE, crossed)])
    yield "a bent quad whose texture crosses", mesh([corners(raised(0.5, 0, 0.25, 0), crossed)])
    for t, name in (([(0, 0), (3, 0), (0, 1), (1, 1)], "first larger"), ([(0, 0), (1, 0), (0, 1), (3, 1)], "second larger"), ([(0, 0), (1, 0), (0, 1), (0, 2)], "second without area"), ([(0, 0), (0, 2), (0, 1), (-1, 1)], "first without area")):
        for way in (1, -1):
            yield f"triangles of a quad disagree, {name}{', mirrored' if way < 0 else ''}", mesh([corners(raised(0.25, 0, 0.5, 0), [(way * u, v) for u, v in t])])
    arrow = [(0, 0), (1, 0), (0.25, 0.25), (0, 1)]
    yield "an arrow head, cut from its notch", mesh([corners([(0, 0, 0), (1, 0, 0), (0.25, 0.25, 0.5), (0, 1, 0)], arrow)])
    yield "an arrow head from its tip", mesh([corners([(1, 0, 0), (0.25, 0.25, 0.5), (0, 1, 0), (0, 0, 0)], arrow[1:] + arrow[:1])])


def welding():
    """Two triangles with a side: one number of one shared corner differs."""
    for part, k in ((0, 3), (1, 3), (2, 2)):
        for i in range(k):
            places, texture, normal = [[1, 1, 1], [2, 1, 1.25], [1, 2, 1], [2, 2, 1.5]], [[1, 1], [2, 1], [1, 2], [2.5, 2]], [0.25, 0.5, 1]
            for l in (places, texture):
                for c in l if l is (places, normal, texture)[part] else []:
                    c[i] = c[i] - (places, normal, texture)[part][1][i] if c is not l[1] else c[i]
            if part == 1:
                normal[i] = 0
            else:
                (places, normal, texture)[part][1][i] = 0
            base = [(tuple(places[c]), tuple(normal), tuple(texture[c])) for c in range(4)]
            near, far = [base[0], base[1], base[2]], [base[1], base[3], base[2]]
            name = ("position", "normal", "texture coordinate")[part]
            yield f"0.0 and -0.0 in number {i} of a {name}: not welded", mesh([near, change(far, 0, part, i, MINUS_0)])
            yield f"-0.0 on both sides in number {i} of a {name}: welded", mesh([change(near, 1, part, i, MINUS_0), change(far, 0, part, i, MINUS_0)])
    tilted = [ONE[1], BESIDE[1], (ONE[2][0], (0, 0.6, 0.8), ONE[2][2])]
    yield "another normal at one place: not welded", mesh([ONE, tilted])
    seam = [ONE[1], BESIDE[1], (ONE[2][0], UP, (0, 2))]
    yield "another texture coordinate at one place: not welded", mesh([ONE, seam])
    bent = change(change(BESIDE, 1, 0, 2, 1), 1, 2, 0, 2)
    yield "a seam all along a side", mesh([ONE, [(p, n, (u + 3, v)) for p, n, (u, v) in bent]])
    yield "a hard edge all along a side", mesh([ONE, [(p, (0, 0.6, 0.8), t) for p, _, t in bent]])
    yield "the last bit of a position: not welded", mesh([ONE, change(bent, 0, 0, 0, "3F800001")])
    yield "the last bit of a normal: not welded", mesh([ONE, change(bent, 0, 1, 2, "3F7FFFFF")])
    yield "the last bit of a texture coordinate: not welded", mesh([ONE, change(bent, 0, 2, 0, "3F800001")])


def links():
    """Sides that two, three or four triangles share."""
    a, b = ((0, 0, 0), UP, (0, 0)), ((1, 0, 0), UP, (1, 0))
    tip = lambda y, z, v: ((0.5, y, z), UP, (0.5, v))
    up = [a, b, tip(1, 0.25, 1)]
    high = [a, b, tip(1, 1, 2)]
    down = [b, a, tip(-1, 0.5, -1)]
    low = [b, a, tip(-1, -1, -3)]
    yield "two triangles, run opposite ways: linked", mesh([up, down])
    yield "two triangles, run the same way: not linked", mesh([up, high])
    yield "three on a side, the first linked with the first opposite one", mesh([up, down, low])
    yield "three on a side, in another order", mesh([up, low, down])
    yield "three on a side, the odd one in the middle", mesh([down, up, low])
    yield "same way twice, then opposite: the first takes it", mesh([up, high, down])
    yield "same way twice, the other first", mesh([high, up, down])
    for k, order in enumerate(([up, high, down, low], [up, down, high, low], [down, low, up, high], [up, low, high, down], [low, high, up, down])):
        yield f"four on a side, two each way, order {k}", mesh(order)
    yield "three one way, one the other", mesh([up, high, [a, b, tip(2, 0.5, 3)], down])
    yield "the side's ends start at another corner", mesh([up[1:] + up[:1], down[2:] + down[:2]])
    yield "the same triangle twice and one opposite", mesh([up, up, down])
    quad = [a, b, ((1, 1, 0.5), UP, (1, 1)), ((0, 1, 0), UP, (0, 1))]
    yield "a quad and a triangle on its side", mesh([quad, down], 0.5)
    yield "a triangle, a quad and another on one side", mesh([down, quad, low], 0.5)


def fan(tips, hub=((0, 0, 0), UP, (0, 0)), closed=False):
    """Triangles round a hub."""
    n = len(tips)
    return [[hub, tips[i], tips[(i + 1) % n]] for i in range(n if closed else n - 1)]


def bowed(x, y):
    """A texture that no plane map gives, so that each triangle has a tangent of its own."""
    return (x + 0.25 * x * y, y + 0.5 * x * x)


def ring(n, height=0.0, turn=0.0, texture=bowed):
    """Corners on a circle."""
    found = []
    for i in range(n):
        x, y = math.cos(2 * math.pi * i / n + turn), math.sin(2 * math.pi * i / n + turn)
        found.append(((x, y, height * ((i % 3) - 1)), UP, texture(x, y)))
    return found


def walks():
    """Round a corner: orientation, group_with_any, links that end the walk."""
    fold = lambda x, y: (abs(x) + 0.25 * x * y, y)
    yield "six triangles round a hub", mesh(fan(ring(6, 0.25), closed=True))
    yield "five triangles, open", mesh(fan(ring(6, 0.25)))
    for k in (1, 2, 3):
        f = fan(ring(6, 0.25), closed=True)
        yield f"six round a hub, from triangle {k}", mesh(f[k:] + f[:k])
    yield "a texture that folds at the hub: two groups", mesh(fan(ring(6, 0.25, 0.1, fold), closed=True))
    yield "a fold, in another order", mesh(fan(ring(6, 0.25, 0.1, fold), closed=True)[::-1])
    bow = fan(ring(6, 0.25)[:2]) + fan(ring(6, 0.25)[3:5])
    yield "two triangles that meet at one corner only: two groups", mesh(bow)
    rim = ring(6, 0.25)
    flat = [rim[0], rim[1], (rim[2][0], UP, rim[1][2]), rim[3], rim[4], rim[5]]
    yield "a group_with_any triangle between two others: joins both", mesh(fan(flat))
    yield "a group_with_any triangle alone: no group", mesh([BLANK])
    yield "a group_with_any triangle first", mesh([fan(flat)[1], fan(flat)[0], fan(flat)[2]])
    yield "a group_with_any triangle between two orientations, plain first", mesh(between(False))
    yield "a group_with_any triangle between two orientations, mirrored first", mesh(between(True))
    yield "a group_with_any triangle between two orientations, from the other end", mesh(between(False)[::-1])
    yield "two group_with_any triangles in a row", mesh(row_of_any(False))
    yield "two group_with_any triangles in a row, mirrored end first", mesh(row_of_any(True))
    for k in range(3):
        faces = between(k == 1)
        faces = [f[k:] + f[:k] for f in faces]
        yield f"orientations on both sides, corners from {k}", mesh(faces[::-1] if k == 2 else faces, 0.5)
    strip = [corners([(i, 0, 0), (i + 1, 0, 0.25 * (i % 2)), (i, 1, 0.5)], [(i, 0), (i + 1, 0), (i, 1)]) for i in range(2)]
    yield "a strip: each corner has a group of its own", mesh([strip[0], [strip[0][1], (strip[1][2][0], UP, (1, 1)), strip[0][2]], strip[1]])
    quads = [corners([(i, j, 0.25 * i * j), (i + 1, j, 0.25 * (i + 1) * j), (i + 1, j + 1, 0.25 * (i + 1) * (j + 1)), (i, j + 1, 0.25 * i * (j + 1))], [(i, j), (i + 1, j), (i + 1, j + 1), (i, j + 1)]) for j in range(2) for i in range(2)]
    yield "four quads round a corner", mesh(quads, 0.5)
    yield "four quads round a corner, from the last", mesh(quads[::-1], 0.5)


def between(mirrored_first):
    """A plain triangle, one without texture area, a mirrored one: a strip."""
    a, b, c, d, e = ((0, 0, 0), UP, (0, 0)), ((1, 0, 0), UP, (1, 0)), ((0, 1, 0.5), UP, (0, 1)), ((1, 1, 0), UP, (0.5, 0.5)), ((2, 1, 0.25), UP, (0, 0.25))
    strip = [[a, b, c], [b, d, c], [b, e, d]]
    return [strip[2], strip[1], strip[0]] if mirrored_first else strip


def row_of_any(mirrored_first):
    a, b, c, d, e, f = ((0, 0, 0), UP, (0, 0)), ((1, 0, 0), UP, (1, 0)), ((0, 1, 0.5), UP, (0, 1)), ((1, 1, 0), UP, (0.5, 0.5)), ((2, 1, 0.25), UP, (0.25, 0.75)), ((2, 0, 0), UP, (0, 0.5))
    strip = [[a, b, c], [b, d, c], [b, e, d], [b, f, e]]
    return strip[::-1] if mirrored_first else strip


def sums():
    """Subgroups at the threshold, order, weights."""
    rim = ring(6, 0.75)
    for t in (-1, 0, 0.5, 0.9, 0.99, 1, 2, -2):
        yield f"six triangles, tips up and down, threshold {t}", mesh(fan(rim, closed=True), t)
    twist = lambda x, y: (x + 0.5 * y * y, y + 0.25 * x * x)
    for t in (0.7, 0.9, 0.95):
        yield f"a twisted texture, threshold {t}", mesh(fan(ring(5, 0.5, 0.3, twist), closed=True), t)
    turned = [ONE, corners([(1, 0, 0), (1, 1, 0), (0, 1, 0)], [(1, 0), (2, 1), (0, 1)])]
    for t in (1, "3F7FFFFF", 0, MINUS_0):
        yield f"cosines at the threshold {t}", mesh([ONE, BESIDE], t)
    yield "a right angle between t and t, threshold 0", mesh(quarter(), 0)
    yield "a right angle between t and t, threshold just below 0", mesh(quarter(), "80000001")
    yield "opposite directions, threshold -1", mesh(half(), -1)
    yield "opposite directions, threshold just below -1", mesh(half(), "BF800001")
    yield "s agrees and t does not, threshold 0.5", mesh(turned, 0.75)
    bent = corners(raised(1.5, 0, 1, 0), [(0, 0), (1, 0), (1, 1), (0, 1)])
    for t in (0.99, 2):
        yield f"a bent quad is one face at any threshold: {t}", mesh([bent], t)
    yield "two bent quads, threshold 2", mesh([bent, corners([(1, 0, 0), (2, 0, 1), (2, 1, 0), (1, 1, 1)], [(1, 0), (2, 0), (2, 1), (1, 1)])], 2)
    flat = [rim[0], rim[1], (rim[2][0], UP, rim[1][2]), rim[3], rim[4]]
    for t in (0.9, 2):
        yield f"a group_with_any triangle joins at any threshold: {t}", mesh(fan(flat), t)
    tilted = [(p, (0.6, 0, 0.8), t) for p, _, t in rim]
    hub = ((0, 0, 0), (0.6, 0, 0.8), (0, 0))
    for t in (0.5, 0.9):
        yield f"a tilted normal: cosines are projected, threshold {t}", mesh(fan(tilted, hub, True), t)
    yield "three triangles listed as the walk does not meet them", mesh([fan(rim)[0], fan(rim)[3], fan(rim)[1], fan(rim)[2], fan(rim, closed=True)[4]])
    yield "narrow and wide angles", mesh(fan([((1, 0, 0.25), UP, (1, 0)), ((1, 0.0625, 0), UP, (1, 0.125)), ((-1, 0.5, 0.5), UP, (-1, 1)), ((-1, -1, 0), UP, (-2, -1))], closed=True))
    yield "normals of the least length", mesh([corners([p for p, _, _ in ONE], [(0, 0), (1, 0), (0, 1)], (0, 0, "00800001")), corners([p for p, _, _ in BESIDE], [(1, 0), (1, 1), (0, 1)], (0, 0, "00800001"))])
    yield "a long normal", mesh([corners([p for p, _, _ in ONE], [(0, 0), (1, 0), (0, 1)], (0.5, 1, 3))])
    yield "a normal in the plane", mesh([corners([p for p, _, _ in ONE], [(0, 0), (1, 0), (0, 1)], (1, 0, 0))])
    yield "a corner without an angle", mesh([corners([(0, 0, 0), (1, 0, 0), (2, 0, 1)], [(0, 0), (1, 0), (2, 1)], (1, 0, 0))])


def quarter():
    """Two triangles with a side; t turns by a right angle, s too."""
    return [ONE, corners([(1, 0, 0), (1, 1, 0), (0, 1, 0)], [(1, 0), (2, 0), (0, 1)])]


def half():
    """Two triangles with a side; the texture turns by a half turn."""
    return [ONE, corners([(1, 0, 0), (1, 1, 0), (0, 1, 0)], [(1, 0), (0, 0), (0, 1)])]


def twice():
    """Slots that both triangles of a quad reach."""
    square = [(0, 0), (1, 0), (1, 1), (0, 1)]
    third = [(x / 3, y / 3) for x, y in square]
    yield "a unit square: 4 behind the corners that both triangles have, 1 behind the others", mesh([QUAD])
    yield "two unit squares, each for itself at threshold 2: still 4 and 1", mesh([QUAD, corners([(x + 1, y, z) for x, y, z in SQUARE], [(u + 1, v) for u, v in square])], 2)
    blank_half = corners(SQUARE, [(0, 0), (1, 0), (1, 1), (1, 1)])
    yield "a square whose second triangle is group_with_any: combined, and that triangle is not counted", mesh([blank_half])
    yield "a flat quad of another size", mesh([corners([(x * 0.7, y * 0.3, 0) for x, y, _ in SQUARE], third)])
    for k, f in enumerate(signed_quads()):
        yield f"quads bent by signs of zero and the least numbers, {k}", f
    pinched = [((0, 0, 0), UP, (0, 0)), ((1, 0, 0), UP, (1, 0)), ((1, 1, 0), UP, (0, 1)), ((0, 1, 0), UP, (1, 1))]
    yield "a crossed quad beside a triangle", mesh([pinched, [pinched[1], pinched[0], ((0.5, -1, 0.5), UP, (0.5, -1))]])


def signed_quads():
    """Quads in the plane x = 0 (and z = 0 and y = 0), bent by the least numbers and by signs of zero, at threshold 2."""
    turned = lambda v, k: v[k:] + v[:k]
    standing = lambda faces, k=0: mesh([[(turned((x, y, z), k), turned(EAST, k), (u, v)) for x, y, z, u, v in f] for f in faces], 2)
    low = "80000001"
    left_below = [(0, 0, LEAST, 0, 0), (MINUS_0, 1, 0, 1, 0), (0, 1, 1, 1, 1), (0, MINUS_0, 1, 0, 1)]
    right_below = [(low, 2, 1, 2, 1), (0, 1, 1, 1, 1), (MINUS_0, 1, 0, 1, 0), (0, 2, 0, 2, 0)]
    left_above = [(0, 1, 1, 1, 1), (0, 1, 2, 2, 0), (0, 0, 2, 0, 2), (0, MINUS_0, 1, 0, 1)]
    right_above = [(0, 1, 1, 1, 1), (low, 2, 1, 2, 1), (0, 2, 2, 1, 1), (0, 1, 2, 2, 0)]
    yield standing([left_below, left_above])
    for k in range(3):
        yield standing([left_below, right_below, left_above, right_above], k)


def copies():
    """Degenerate corners and the missing corner of a marked quad."""
    point = lambda c: [c, c, c]
    yield "a point on a sound corner: three copies", mesh([ONE, point(ONE[0])])
    yield "a point before the sound triangle", mesh([point(ONE[1]), ONE])
    yield "a point away from all: absent", mesh([ONE, point(((7, 7, 7), UP, (7, 7)))])
    yield "a point alone: absent", mesh([point(ONE[0])])
    yield "a needle with two sound corners", mesh([ONE, [ONE[0], ONE[0], ONE[2]]])
    yield "a needle whose third corner is nobody's", mesh([ONE, [ONE[1], ONE[1], ((9, 0, 0), UP, (9, 0))]])
    yield "a needle of another normal: not welded, absent", mesh([ONE, point((ONE[0][0], (0, 1, 0), ONE[0][2]))])
    yield "a needle of another texture: not welded, absent", mesh([ONE, point((ONE[0][0], UP, (0.5, 0)))])
    yield "a needle at -0.0: not welded, absent", mesh([ONE, point(((MINUS_0, 0, 0), UP, (0, 0)))])
    yield "the first sound corner is absent: absent is copied", mesh([BLANK, point(BLANK[0])])
    hard = [(p, (0, 0.6, 0.8), t) for p, _, t in BLANK]
    yield "the first sound corner is absent, a later one present: absent is copied", mesh(absent_first())
    yield "the first sound corner is present, a later one absent", mesh(absent_first()[::-1])
    yield "two triangles at a corner: the first is copied", mesh(fan(ring(6, 0.5)) + [point(((0, 0, 0), UP, (0, 0)))], 2)
    yield "two triangles at a corner, the point first", mesh([point(((0, 0, 0), UP, (0, 0)))] + fan(ring(6, 0.5))[::-1], 2)
    yield "a point on a combined corner: 3, and what stood behind is carried along", mesh([QUAD, point(QUAD[0])])
    yield "a point on the hub of six: 6 stood behind", mesh(fan(ring(6, 0.5), closed=True) + [point(((0, 0, 0), UP, (0, 0)))])
    yield "a quad that is a point on an absent corner: absent", mesh([BLANK, [BLANK[1]] * 4])
    yield "a quad that is a point", mesh([ONE, [ONE[2]] * 4])
    yield "a quad that is a line: both degenerate, copies by weld", mesh([ONE, [ONE[0], ONE[1], ONE[0], ONE[1]]])
    square = [(0, 0), (1, 0), (1, 1), (0, 1)]
    for a, b in ((0, 1), (1, 2), (2, 3), (3, 0)):
        p = raised(0.25, 0, 0.5, 0)
        p[b] = p[a]
        yield f"a marked quad: corner {b} at corner {a}", mesh([corners(p, square)], 0.5)
        q = [tuple(MINUS_0 if x == 0 and i == b else x for x in c) for i, c in enumerate(p)]
        yield f"a marked quad: corner {b} at corner {a} but for signs of zero", mesh([corners(q, square)])
    marked = corners([(0, 0, 0), (1, 0, 0.5), (1, 1, 0), (1, 1, 0)], square)
    yield "a marked quad beside a triangle: the missing corner is not copied by weld", mesh([[marked[3], ((0, 2, 1), UP, (0, 3)), marked[0]], marked], 0.9)
    yield "a marked quad behind its neighbour", mesh([[marked[1], ((3, 0, 1), UP, (3, 0)), marked[2]], marked, [marked[0], ((0, 2, 1), UP, (0, 3)), marked[3]]], 0.9)
    yield "a marked quad without texture: absent is copied", mesh([corners([(0, 0, 0), (1, 0, 0), (1, 1, 0), (1, 1, 0)], [(0, 0)] * 4)])
    beside = [marked[3], marked[1], ((2, 1, 0.25), UP, (2, 1))]
    yield "a marked quad and a triangle on its side: 2 stood behind the copy", mesh([marked, beside])
    yield "a marked quad and a needle on its missing corner", mesh([marked, [marked[3], marked[3], marked[0]]])


def absent_first():
    """A triangle without texture area whose corner nobody reaches, and a sound one that shares only that corner's bits, unlinked."""
    shared = ((0, 0, 0), UP, (0, 0))
    blank = [shared, ((-1, 0, 0), UP, (0, 0)), ((0, -1, 0), UP, (0, 0))]
    sound = [shared, ((1, 0, 0), UP, (1, 0)), ((0, 1, 0), UP, (0, 1))]
    return [blank, sound, [shared] * 3]


def numbers():
    """Overflow, NaN, small numbers, the last bits."""
    for e in ("7E800000", "7F000000", MOST):
        yield f"positions of size {e}", mesh([corners([(0, 0, 0), (e, 0, 0), (0, e, 0)], [(0, 0), (1, 0), (0, 1)])])
        yield f"texture of size {e}", mesh([corners([p for p, _, _ in ONE], [(0, 0), (e, 0), (0, e)])])
    yield "normals of the largest size", mesh([corners([p for p, _, _ in ONE], [(0, 0), (1, 0), (0, 1)], (MOST, MOST, MOST))])
    for far, wide in ((2e18, 2e-38), (1e19, "01000000"), (-1e19, "01000000")):
        yield f"corners on a line up to {far:g}: an infinite magnitude at an angle of zero, NaN in the answer", mesh([corners([(0, 0, 0), (far / 2, 0, 0), (far, 0, 0)], [(0, 0), (1, 0), (0, wide)])])
    yield "normals whose square is beyond the numbers", mesh([corners([p for p, _, _ in ONE], [(0, 0), (1, 0), (0, 1)], ("5F800000", 0, 1))])
    yield "positions that differ beyond the numbers", mesh([corners([("FF7FFFFF", 0, 0), (MOST, 0, 0), (0, 1, 0)], [(0, 0), (1, 0), (0, 1)])])
    for e in ("00800001", "1A000000", "1F000000"):
        yield f"positions of size {e}", mesh([corners([(0, 0, 0), (e, 0, 0), (0, e, 0)], [(0, 0), (1, 0), (0, 1)])])
    # the third corner stands at a third of a half turn, and the cosine there comes out as 1/2 exactly
    for u, v in ((0.5, 1), (0.25, 1), (1, 3)):
        north = ((0.5, "3F5DB3D7", 0), UP, (u, v))
        hub, west = ((0, 0, 0), UP, (0, 0)), ((-1, 0, 0), UP, (-1, 0.5))
        yield f"a cosine of 1/2, texture {u}, {v}", mesh([[hub, ((1, 0, 0), UP, (1, 0)), north], [hub, north, west]])
    g = random.Random(11)
    for k in range(10):
        c = lambda: tuple(g.randint(-2**20, 2**20) / 2**18 for _ in range(3))
        n = lambda: (lambda v: tuple(x / math.sqrt(sum(y * y for y in v)) for x in v))(tuple(g.uniform(-1, 1) for _ in range(3)))
        v = [(c(), n(), (g.random(), g.random())) for _ in range(5)]
        yield f"numbers of many bits, {k}", mesh([[v[0], v[1], v[2]], [v[2], v[1], v[3], v[4]]], g.uniform(-1, 0.9))


MADE = [refusals, lists, cuts, degenerate, tangents, welding, links, walks, sums, twice, copies, numbers]


def all_meshes():
    for g, maker in enumerate(MADE):
        for name, m in maker():
            yield g, name, m
