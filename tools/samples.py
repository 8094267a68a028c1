#!/usr/bin/env python3
"""Writes crates/definition/proofs/Samples.antt and crates/laws/proofs/SamplesMore.antt: document 01's samples, computed by the checker from the definitions.

Run it in the repository, with no argument: `python3 tools/samples.py`, then `rt tidy` in definition and laws (which drops what they import in vain).
Each number stands as its bits. The proofs unfold every definition that is marked `unfoldable` in the specs/ of the crates
below, so the script reads those names from the files; add a sample here, never in the file."""
import re
import struct

from plain import COMBINED, COPIED, FILLED, SINGLE, SLOT_WORDS

CRATES = {
    "root": ["Root"],
    "angle": ["Table", "Angle"],
    "math": ["Vector"],
    "tangent": ["Space", "Slot"],
    "bits": ["Word"],
    "lists": ["Lists"],
    "definition": [
        "Mesh", "Handed", "Step1Cut", "Step2Degenerate", "Step3Tangents", "Triangles", "Step4Order", "Step5Links",
        "Step6Groups", "Step7Sums", "Step8Slots", "Step9Copies", "Frames", "Desk", "Outcome", "Shuffle",
    ],
}
IEEE = "is_nan add sub mul div neg lt le eq to_bits of_bits round to_unsigned to_signed of_int size units"


def bits(x):
    """The bits of a number, given as a number or as its bits in hexadecimal."""
    return int(x, 16) if isinstance(x, str) else struct.unpack("<I", struct.pack("<f", x))[0]


def numeral(n):
    return str(n) if n < 10 else f"0x{n >> 16:04x}_{n & 0xFFFF:04x}"


def words(xs):
    """A list of words."""
    return "(" + " ∷ ".join([numeral(x) for x in xs] + ["[]"]) + ")"


def numbers(xs):
    """A list of numbers, by their bits."""
    return "(numbers " + words([bits(x) for x in xs]) + ")"


def vector(v):
    return "(vec " + " ".join(f"(number {numeral(bits(x))})" for x in v) + ")"


def corner(place, normal, texture):
    u, v = (f"number {numeral(bits(x))}" for x in texture)
    return f"(record {{ place = {vector(place)}; normal = {vector(normal)}; u = {u}; v = {v}; tag = 0 }})"


def sizes(ns):
    return "(" + " ∷ ".join([str(n) for n in ns] + ["[]"]) + ")"


class Mesh:
    """A mesh as it is handed in: faces, each a list of (position, normal, texture coordinate)."""

    def __init__(self, faces, threshold=-1.0):
        self.sizes = [len(f) for f in faces]
        corners = [c for f in faces for c in f]
        self.places = [x for c in corners for x in c[0]]
        self.normals = [x for c in corners for x in c[1]]
        self.texture = [x for c in corners for x in c[2]]
        self.threshold = threshold

    def slots(self):
        return sum(n for n in self.sizes if n in (3, 4))

    def call(self, answer=None, work=None):
        """The call of this mesh with lent lists of that many words (just enough, unless said), filled with 7 and 9."""
        answer = SLOT_WORDS * self.slots() if answer is None else answer
        work = 128 * len(self.sizes) if work is None else work
        return (
            f"Outcome'.outcome (call (handed {sizes(self.sizes)} {numbers(self.places)} {numbers(self.normals)} {numbers(self.texture)}) "
            f"(number {numeral(bits(self.threshold))}) (replicate {answer} 7) (replicate {work} 9))"
        )

    def taken(self, answer):
        """What an accepted call of this mesh leaves behind: 0, 0, S, the answer's words, and zeros in the work list."""
        return f"record {{ number = 0; place = 0; slots = {self.slots()}; answer = {words(answer)}; work = replicate {128 * len(self.sizes)} 0 }}"


UP = (0, 0, 1)
ONE = 0x3F80_0000
MINUS_ONE = 0xBF80_0000


def triangle(texture):
    return Mesh([[((0, 0, 0), UP, texture[0]), ((1, 0, 0), UP, texture[1]), ((0, 1, 0), UP, texture[2])]])


SAMPLE_1 = triangle([(0, 0), (1, 0), (0, 1)])
SAMPLE_2 = triangle([(0, 0), (-1, 0), (0, 1)])
SAMPLE_3 = triangle([(0, 0), (0, 0), (0, 0)])
# sample 1 without a normal at its second corner
BARE = Mesh([[((0, 0, 0), UP, (0, 0)), ((1, 0, 0), (0, 0, 0), (1, 0)), ((0, 1, 0), UP, (0, 1))]])


def square(x, width):
    """A unit square whose lower left corner is (x, 0), as a quad, with its texture `width` wide."""
    return [((x + i, j, 0), UP, ((x + i) * width, j)) for i, j in [(0, 0), (1, 0), (1, 1), (0, 1)]]


TWO_QUADS = Mesh([square(0, 0.5), square(1, 0.5)])


def frame(s, t, s_magnitude, t_magnitude, orientation, origin=SINGLE, behind=1):
    """The words of a slot that is there."""
    return [1] + [bits(x) for x in (*s, *t, s_magnitude, t_magnitude)] + [orientation, origin, behind]


def from_origins(made, origins):
    """Slots by what each came from: `made(origin, behind)` gives one's words."""
    return [w for origin, behind in origins for w in made(origin, behind)]


def east(origin, behind):
    return frame((1, 0, 0), (0, 1, 0), 1, 1, 1, origin, behind)


def wide(origin, behind):
    """East, its texture half as wide."""
    return frame((1, 0, 0), (0, 1, 0), 2, 1, 1, origin, behind)


EAST_FRAME = east(SINGLE, 1)
# of each quad two corners are in both triangles, so they are combined
TWO_QUADS_ORIGINS = [(COMBINED, 4), (SINGLE, 3), (COMBINED, 6), (SINGLE, 1), (COMBINED, 6), (SINGLE, 1), (COMBINED, 4), (SINGLE, 3)]
SQUARE_ORIGINS = [(COMBINED, 4), (SINGLE, 1), (COMBINED, 4), (SINGLE, 1)]
ABSENT = [0] * SLOT_WORDS

# sample 1 beside its mirror image, whose texture runs the other way: two orientations at one corner
MIRROR = Mesh([[((0, 0, 0), UP, (0, 0)), ((1, 0, 0), UP, (1, 0)), ((0, 1, 0), UP, (0, 1))], [((0, 0, 0), UP, (0, 0)), ((0, -1, 0), UP, (0, 1)), ((1, 0, 0), UP, (1, 0))]])
# a unit square whose texture crosses itself: its two triangles disagree in orientation and have the same area
CROSSED = Mesh([[((0, 0, 0), UP, (0, 0)), ((1, 0, 0), UP, (1, 0)), ((1, 1, 0), UP, (0, 1)), ((0, 1, 0), UP, (1, 1))]])
# a face whose three corners are the first corner of sample 1; alone, and behind sample 1
POINT = [((0, 0, 0), UP, (0, 0))] * 3
POINT_ALONE = Mesh([POINT])
POINT_SHARED = Mesh([[((0, 0, 0), UP, (0, 0)), ((1, 0, 0), UP, (1, 0)), ((0, 1, 0), UP, (0, 1))], POINT])
# behind sample 3, whose first corner is absent
POINT_ABSENT = Mesh([[((0, 0, 0), UP, (0, 0)), ((1, 0, 0), UP, (0, 0)), ((0, 1, 0), UP, (0, 0))], POINT])
# sample 1 as a quad whose last two corners are one: one of its triangles is degenerate, so both are marked
MARKED = Mesh([[((0, 0, 0), UP, (0, 0)), ((1, 0, 0), UP, (1, 0)), ((0, 1, 0), UP, (0, 1)), ((0, 1, 0), UP, (0, 1))]])

# three triangles round a hub, in an order that the walk does not keep
HUB = ((0, 0, 0), UP, (0, 0))
EAST, NORTH, WEST, SOUTH = (((1, 0, 0), UP, (1, 0)), ((0, 1, 0), UP, (0, 3)), ((-1, 0, 0), UP, (-1, 0)), ((0, -1, 0), UP, (0, -2)))
FAN = Mesh([[HUB, EAST, NORTH], [HUB, SOUTH, EAST], [HUB, NORTH, WEST]])
FAN_FIRST = Mesh([[HUB, EAST, NORTH]])
FAN_FRAME = frame((1, 0, 0), (0, 1, 0), 1, "3ec71c72", 1, SINGLE, 3)
HALF_ROOT = "3f3504f3"

# quads in the plane x = 0, bent by the least numbers and by signs of zero: threshold 2 leaves each triangle to its own face
LEAST, MINUS_LEAST, MINUS_0 = "00000001", "80000001", "80000000"


def standing(faces):
    """Faces of (x, y, z, u, v), their normals (1, 0, 0), at threshold 2."""
    return Mesh([[((x, y, z), (1, 0, 0), (u, v)) for x, y, z, u, v in f] for f in faces], 2)


LEFT_BELOW = [(0, 0, LEAST, 0, 0), (MINUS_0, 1, 0, 1, 0), (0, 1, 1, 1, 1), (0, MINUS_0, 1, 0, 1)]
RIGHT_BELOW = [(MINUS_LEAST, 2, 1, 2, 1), (0, 1, 1, 1, 1), (MINUS_0, 1, 0, 1, 0), (0, 2, 0, 2, 0)]
LEFT_ABOVE = [(0, 1, 1, 1, 1), (0, 1, 2, 2, 0), (0, 0, 2, 0, 2), (0, MINUS_0, 1, 0, 1)]
RIGHT_ABOVE = [(0, 1, 1, 1, 1), (MINUS_LEAST, 2, 1, 2, 1), (0, 2, 2, 1, 1), (0, 1, 2, 2, 0)]
EARLIER = standing([LEFT_BELOW, LEFT_ABOVE])
SIDES = standing([LEFT_BELOW, RIGHT_BELOW, LEFT_ABOVE, RIGHT_ABOVE])


def north(z, origin=SINGLE, behind=1):
    return frame((0, 1, z), (0, 0, 1), 1, 1, 1, origin, behind)


EARLIER_FRAMES = [
    north(MINUS_LEAST, COMBINED, 4), north(MINUS_LEAST), north(MINUS_LEAST, COMBINED, 4), north(0),
    north(0, COMBINED, 4), ABSENT, north(0, COMBINED, 2), north(0),
]
CROSSED_FRAMES = [
    frame(s, (HALF_ROOT, HALF_ROOT, 0), 1, "3fb504f3", 1, origin, behind)
    for s, (origin, behind) in zip([(0, 0, 0), (1, 0, 0), (0, 0, 0), (-1, 0, 0)], SQUARE_ORIGINS)
]


# a triangle whose s has an infinite squared length, so that it has no direction (request E6)
FAR = [((0, 0, 0), UP, (0, 0)), ((1e20, 0, 0), UP, (1, 0)), ((0, 1, 0), UP, (0, 1))]
FAR_ALONE = Mesh([FAR])
FAR_TRIANGLE = "Triangles'.make 0 false 3 " + " ".join(f"(Triangles'.nook {i} {corner(*c)})" for i, c in enumerate(FAR))

# whole calls: a name, a comment, the call or a part of it, what it is
WHOLE = [
    ("sample_1", "sample 1", SAMPLE_1.call(), SAMPLE_1.taken(EAST_FRAME * 3)),
    ("sample_2", "sample 2", SAMPLE_2.call(), SAMPLE_2.taken(frame((-1, 0, 0), (0, 1, 0), 1, 1, 0) * 3)),
    ("sample-3", "sample 3: 36 zero words", SAMPLE_3.call(), SAMPLE_3.taken(ABSENT * 3)),
    ("past", "sample 1 with both lists two words longer: nothing past 12S and 128F is altered", f"untouched ({SAMPLE_1.call(38, 130)})", words([7, 7, 9, 9])),
    ("no-face", "'F = 0 by itself is no ground for refusal': nothing is altered", Mesh([]).call(3, 2), "record { number = 0; place = 0; slots = 0; answer = replicate 3 7; work = replicate 2 9 }"),
    ("refused", "sample 1 with an answer list one word short: refusal 5 alters nothing", SAMPLE_1.call(35, 128), "record { number = 5; place = 0; slots = 0; answer = replicate 35 7; work = replicate 128 9 }"),
    ("no-normal", "request E4: sample 1 without a normal at one corner: refusal 7 alters nothing", BARE.call(), "record { number = 7; place = 1; slots = 0; answer = replicate 36 7; work = replicate 128 9 }"),
    ("two-quads", "two quads that share a side: equal numbers, but a corner in both triangles of its quad is combined", TWO_QUADS.call(), TWO_QUADS.taken(from_origins(wide, TWO_QUADS_ORIGINS))),
    ("quad-filled", "request E7: the missing corner of a marked quad is copied within it: 4, and what stood behind is carried along", MARKED.call(), MARKED.taken(from_origins(east, [(SINGLE, 1)] * 3 + [(FILLED, 1)]))),
    ("fan", "three triangles round a hub: the hub's frame is that of the sum in triangle order", f"take {SLOT_WORDS} (({FAN.call()}).answer)", words(FAN_FRAME)),
    ("fan-first", "the first of them alone: another frame", FAN_FIRST.call(), FAN_FIRST.taken([x for m in ("3eaaaaab", "3eaaaaac", "3eaaaaac") for x in frame((1, 0, 0), (0, 1, 0), 1, m, 1)])),
    ("mirror", "sample 1 beside its mirror image: a triangle of the other orientation stops the walk", MIRROR.call(), MIRROR.taken(EAST_FRAME * 3 + frame((1, 0, 0), (0, -1, 0), 1, 1, 0) * 3)),
    (
        "crossed",
        "a square whose texture crosses itself: its triangles disagree, and the first's area is as large, so the orientation is the first's",
        CROSSED.call(),
        CROSSED.taken([w for f in CROSSED_FRAMES for w in f]),
    ),
    ("earlier", "'if the two are equal by float comparison, the earlier stays as it is'; it is combined all the same", EARLIER.call(), EARLIER.taken([w for f in EARLIER_FRAMES for w in f])),
    ("sides", "'the side before the corner first': the sign of a zero in slot 8 tells", f"take {SLOT_WORDS} (drop {8 * SLOT_WORDS} (({SIDES.call()}).answer))", words(north(MINUS_0, COMBINED, 5))),
    ("far", "request E6: a triangle whose s is none starts no group, so it is absent; before it was there, with a zero direction and an infinite magnitude", FAR_ALONE.call(), FAR_ALONE.taken(ABSENT * 3)),
    ("point-alone", "a face whose corners are all one: absent", POINT_ALONE.call(), POINT_ALONE.taken(ABSENT * 3)),
    ("point-shared", "the same behind sample 1, whose first corner it shares: it copies that corner's frame, which word 10 says. So demand 3 counts corners of degenerate faces too", POINT_SHARED.call(), POINT_SHARED.taken(EAST_FRAME * 3 + east(COPIED, 1) * 3)),
    ("point-absent", "request E7: the same behind sample 3, whose first corner is absent: 'a copy of an absent slot stays 0'", POINT_ABSENT.call(), POINT_ABSENT.taken(ABSENT * 6)),
]

ZERO = corner((0, 0, 0), (0, 0, 0), (0, 0))
MINUS_ZERO = corner(("80000000", 0, 0), (0, 0, 0), (0, 0))
EAST_CORNER = corner((1, 0, 0), (0, 0, 0), (0, 0))
SQUARE = " ".join(corner(*c) for c in square(0, 1))


def fan_triangle(face, a, b):
    return f"Triangles'.make {face} false 3 (Triangles'.nook 0 {corner(*HUB)}) (Triangles'.nook 1 {corner(*a)}) (Triangles'.nook 2 {corner(*b)})"


FAN_TRIANGLES = [f"({fan_triangle(0, EAST, NORTH)})", f"({fan_triangle(1, SOUTH, EAST)})", f"({fan_triangle(2, NORTH, WEST)})"]


def summed(order):
    """The words of the hub's frame, the fan's triangles summed in an order."""
    return f"Slot'.present {SINGLE} (Step7Sums'.evaluate {corner(*HUB)} (" + " ∷ ".join([FAN_TRIANGLES[i] for i in order] + ["[]"]) + ")) true"


def nan_mesh(ns):
    """Faces of these sizes, all zeros but the last position's last number, a NaN."""
    count = sum(ns)
    return f"Outcome'.outcome (call (handed {sizes(ns)} {numbers([0] * (3 * count - 1) + ['7fc00000'])} {numbers([0] * 3 * count)} {numbers([0] * 2 * count)}) (number {numeral(MINUS_ONE)}) [] (replicate 256 9))"


ORDINARY, NOTHING = [0, 0, 1], [0, 0, 0]


def normal_mesh(ns, normals, place=0, threshold=-1):
    """Faces of these sizes with these normals, all other numbers zero but the last position's last; no word of answer is lent, so that 5 follows 7."""
    count = sum(ns)
    flat = [x for n in normals for x in n]
    return f"Outcome'.outcome (call (handed {sizes(ns)} {numbers([0] * (3 * count - 1) + [place])} {numbers(flat)} {numbers([0] * 2 * count)}) (number {numeral(bits(threshold))}) [] (replicate 256 9))"


def is_true(t):
    return t


def is_false(t):
    return f"not ({t})"


def is_number(t, n):
    return f"eqb ({t}) {n}"


def is_word(t, w):
    return f"eqb (word ({t})) {numeral(w)}"


# the samples marked *, in document 01's order, then the slips: a comment and a test
STARRED = [
    ("4: position pair (0,0,0), (-0,0,0): degenerate, not welded", is_true(f"Step2Degenerate'.flat {ZERO} {MINUS_ZERO} {EAST_CORNER}")),
    ("", is_false(f"Step4Order'.welded {ZERO} {MINUS_ZERO}")),
    ("5: a unit square with the same texture square: cut 02", is_true(f"Step1Cut'.cut02 {SQUARE}")),
    ("6: 00800000 counts as zero; 00800001 doesn't", is_false("Vector'.counts (number 0x0080_0000)")),
    ("", is_true("Vector'.counts (number 0x0080_0001)")),
    ("7: root of 2 is 3FB504F3; of 4, 40000000", is_word("Root'.sqrt (number 0x4000_0000)", 0x3FB5_04F3)),
    ("", is_word("Root'.sqrt (number 0x4080_0000)", 0x4000_0000)),
    ("8: angle of 1 is 0, of 0 is 3FC90FDB, of -1 is 40490FDB", is_word("Angle'.angle (number 0x3f80_0000)", 0)),
    ("", is_word("Angle'.angle (number 0)", 0x3FC9_0FDB)),
    ("", is_word("Angle'.angle (number 0xbf80_0000)", 0x4049_0FDB)),
    ("9: X of 3F3504F3 is 759,250,112; of BF3504F3 the negative; of 2^-31 and of -0.0, zero", "same_whole (Angle'.whole_of (number 0x3f35_04f3)) (pos 759250112)"),
    ("", "same_whole (Angle'.whole_of (number 0xbf35_04f3)) (neg_ℤ (pos 759250112))"),
    ("", "same_whole (Angle'.whole_of (number 0x3000_0000)) (pos 0)"),
    ("", "same_whole (Angle'.whole_of (number 0x8000_0000)) (pos 0)"),
    ("10: F of 65,537 is refused with 1; 65,536 isn't", is_number("Outcome'.outcome (call (handed (replicate 65537 3) [] [] []) nan [] []).number", 1)),
    ("", is_number("Outcome'.outcome (call (handed (replicate 65536 3) [] [] []) nan [] []).number", 2)),
    (".. no row applies to 65,536 faces of no corner and a work list that is long enough: they are accepted", is_false("Lists'.has (λ r. r.applies) (Desk'.table (shown (handed (replicate 65536 0) [] [] []) (number 0xbf80_0000) 0 8388608))")),
    ("11: sizes 5, 2 and 0 only: S is 0", is_number("Handed'.slot_count (5 ∷ 2 ∷ 0 ∷ [])", 0)),
    ("12: a NaN in a face of 5 is no ground for 4; in a face of 3 it is, and 4 is given if 1 to 3 don't apply", is_number(f"({nan_mesh([5])}).number", 0)),
    ("", is_number(f"({nan_mesh([3])}).number", 4)),
    ("", is_number(f"({nan_mesh([5, 3])}).place", 7)),
    ("E4: a corner without a normal, in a face of 3: 7 at its place, and not 5, which applies too", is_number(f"({normal_mesh([3], [ORDINARY, ORDINARY, NOTHING])}).number", 7)),
    ("", is_number(f"({normal_mesh([3], [ORDINARY, ORDINARY, NOTHING])}).place", 2)),
    (".. the lowest such corner, counted over all C; a face of 5 is not asked", is_number(f"({normal_mesh([5, 3], [NOTHING] * 5 + [ORDINARY, NOTHING, NOTHING])}).place", 6)),
    ("", is_number(f"({normal_mesh([5], [NOTHING] * 5)}).number", 0)),
    (".. a corner of a quad", is_number(f"({normal_mesh([4], [ORDINARY] * 3 + [NOTHING])}).place", 3)),
    (".. 00800000 counts as zero, with either sign, and zero too; where one of three is 00800001 the normal is there", is_number(f"({normal_mesh([3], [ORDINARY, ['00800000', '80800000', '80000000'], ORDINARY])}).number", 7)),
    ("", is_number(f"({normal_mesh([3], [['00800001', '00800000', 0], ['80000000', '80800001', 0], [0, '80800000', '00800001']])}).number", 5)),
    (".. 4 comes before 7, though its corner is behind; 3 too", is_number(f"({normal_mesh([3], [NOTHING, ORDINARY, ORDINARY], '7fc00000')}).number", 4)),
    ("", is_number(f"({normal_mesh([3], [NOTHING, ORDINARY, ORDINARY], '7fc00000')}).place", 2)),
    ("", is_number(f"({normal_mesh([3], [NOTHING, ORDINARY, ORDINARY], 0, '7f800000')}).number", 3)),
    ("E6: no component counts, though none is zero: no direction, and the zero vector without a sign", is_true(f"Step4Order'.same_vector (Vector'.unit_of {vector(('80800000', '80000001', '80000000'))}) {vector((0, 0, 0))}")),
    ("E6: squared length zero, though a component counts", is_true(f"Step4Order'.same_vector (Vector'.unit_of {vector((-1e-30, 0, 0))}) {vector((0, 0, 0))}")),
    ("E6: squared length infinite", is_true(f"Step4Order'.same_vector (Vector'.unit_of {vector((1e20, 0, 0))}) {vector((0, 0, 0))}")),
    ("E6: squared length NaN", is_true(f"Step4Order'.same_vector (Vector'.unit_of {vector((1, '7fc00000', 0))}) {vector((0, 0, 0))}")),
    ("a tiny squared length has a direction, though not of unit length", is_word(f"Vector'.unit_of ({vector((1e-22, 0, 0))}).x", 0x3F81_3D57)),
    ("E6: a triangle whose s is none, by an infinite squared length, is `group_with_any`, though its area and both magnitudes count", is_true(f"({FAR_TRIANGLE}).any")),
    ("", is_true("Vector'.counts (Step3Tangents'.turn " + " ".join(corner(*c) for c in FAR) + ")")),
    ("", is_true(f"Vector'.counts (({FAR_TRIANGLE}).tangent.s_magnitude)")),
    ("", is_true(f"Vector'.counts (({FAR_TRIANGLE}).tangent.t_magnitude)")),
    ("slip 'Welding by float comparison: -0.0 and 0.0 would join': they compare equal", is_true(f"Vector'.equals {vector((0, 0, 0))} {vector(('80000000', 0, 0))}")),
    ("slip '`>` for the position diagonals: the tie goes the wrong way': neither diagonal of the square is longer", is_false(f"lt (Step1Cut'.apart² {corner(*square(0, 1)[2])} {corner(*square(0, 1)[0])}) (Step1Cut'.apart² {corner(*square(0, 1)[3])} {corner(*square(0, 1)[1])})")),
    ("slip 'Summing a subgroup in walk order: last bits change': in triangle order the frame above, in walk order another", is_true(f"same_words ({summed([0, 1, 2])}) {words(FAN_FRAME)}")),
    ("", is_false(f"same_words ({summed([0, 2, 1])}) {words(FAN_FRAME)}")),
    ("slip 'Storing zeros with word 0 = 1 for an absent corner': its words are twelve zeros", is_true(f"same_words (Slot'.words Absent) (replicate {SLOT_WORDS} 0)")),
]

HEAD = """-- Document 01's samples, computed from the definitions. Written by tools/samples.py. Assumes nothing.
use Prim.Native.Nat.{ℕ}
use mathlib.Core.Path.{◌≡◌, refl}
use mathlib.Core.Bool.{Bool, true, false, not, ◌&&◌, xor}
use mathlib.Core.List.{List, [], ◌∷◌, ◌++◌, map, flat_map}
use lib.Dec.{eqb}
use lib.ListN.{take, drop, replicate}
use lib.IntN.{ℤ, pos, neg_ℤ}
use lib.Signed.{le_z}
use lib.Ieee.{Float, nan, is_nan, add, sub, mul, div, neg, lt, le, eq, to_bits, of_bits, round, to_unsigned, to_signed, of_int, size, units}
use Rattle.bits.specs.Word.{word, number}
use Rattle.math.specs.Vector.{vec}
use Rattle.tangent.specs.declared.Reading.TheVariants.{Absent}
use Rattle.definition.specs.Handed.{handed, call}
use Rattle.definition.specs.Desk.{shown}
"""


NUMBERS = """
-- numbers, by their bits
abbrev numbers : List ℕ → List Float
numbers l = map number l

"""

# what no must-fail edit of `definition` falls at stands in `laws`, which has none: each of those edits computes all samples of `definition`
MORE = {"two-quads", "quad-filled", "no-normal", "earlier", "sides", "far", "point-alone", "point-shared", "point-absent"}
MORE_HEAD = "-- More meshes, computed from the definitions. Written by tools/samples.py. Assumes nothing.\n"


def unfolded():
    uses, names = [], []
    for crate, modules in CRATES.items():
        for module in modules:
            text = open(f"crates/{crate}/specs/{module}.antt", encoding="utf-8").read()
            found = re.findall(r"^ *unfoldable pub (\S+)", text, re.M)
            if found:
                path = f"Rattle.{crate}.specs."
                uses.append(f"use {path}{module} as {module}'\n")
                names += [f"{module}'.{name}" for name in found]
    return "".join(uses), " ".join(names)


def listed(rows):
    """The rows of a list, each below its comment."""
    return "".join(f"    -- {note}\n    {row}\n" if note else f"    {row}\n" for note, row in rows)


def main():
    uses, names = unfolded()
    out = HEAD + uses
    out += NUMBERS + """-- the same words
unfoldable same_words : List ℕ → List ℕ → Bool
same_words [] [] = true
same_words [] (y ∷ m) = false
same_words (x ∷ l) [] = false
same_words (x ∷ l) (y ∷ m) = eqb x y && same_words l m

-- what stands past 36 words of the answer list and 128 of the work list
abbrev untouched : Outcome'.Result → List ℕ
untouched r = drop 36 (r.answer) ++ drop 128 (r.work)

-- the same whole number
abbrev same_whole : ℤ → ℤ → Bool
same_whole a b = le_z a b && le_z b a

"""
    out += "-- the samples marked *, as tests, in document 01's order; then, for each slip that was seen coming, what tells it from the rule\npub starred : List Bool\nstarred =\n"
    out += "    " + " ∷\n    ".join(f"({test})" for _, test in STARRED) + " ∷ []\n\n"
    out += f"-- one proof over all of them: no test fails\npub starred-hold : Lists'.has not starred ≡ false\nunfolding starred same_words {names} {IEEE} xor flat_map\nstarred-hold = refl\n\n"
    shows = lambda rows: "\n".join(f"-- {note}\npub {name} : {call} ≡ {result}\nunfolding {names} {IEEE} xor flat_map\n{name} = refl\n" for name, note, call, result in rows)
    open("crates/definition/proofs/Samples.antt", "w", encoding="utf-8").write(out + shows(row for row in WHOLE if row[0] not in MORE))
    more = MORE_HEAD + HEAD.split("\n", 1)[1] + uses + NUMBERS + shows(row for row in WHOLE if row[0] in MORE)
    open("crates/laws/proofs/SamplesMore.antt", "w", encoding="utf-8").write(more)


if __name__ == "__main__":
    main()
