//! Cutting a case down: fewer faces, then simpler numbers, while it still differs.
use crate::mesh::{Case, Mesh};
use crate::text::number;
use std::ops::Range;
use std::time::{Duration, Instant};

/// How long one case is cut down at most.
const PATIENCE: Duration = Duration::from_secs(60);

/// A case that is being cut down.
struct Cut<'a> {
    case: Case,
    differs: &'a dyn Fn(&Case) -> bool,
    end: Instant,
}

/// The smallest case found that still differs.
pub fn shrink(case: &Case, differs: &dyn Fn(&Case) -> bool) -> Case {
    let mut cut = Cut {
        case: case.clone(),
        differs,
        end: Instant::now() + PATIENCE,
    };
    cut.attempt(Case {
        foreseen: None,
        ..case.clone()
    });
    if cut.case.foreseen.is_none() {
        while cut.round() && Instant::now() < cut.end {}
    }
    cut.case
}

impl Cut<'_> {
    /// Takes another case in the place of this one if it differs too.
    fn attempt(&mut self, other: Case) -> bool {
        let taken = other != self.case && Instant::now() < self.end && (self.differs)(&other);
        if taken {
            self.case = other;
        }
        taken
    }

    /// Tries everything once; true if something was taken.
    fn round(&mut self) -> bool {
        let shorter = self.empty() | self.drop_faces() | self.drop_corners() | self.trim();
        let plain = self.unshuffle();
        shorter | plain | self.simplify()
    }

    /// Takes every corner away and keeps the faces, where their number is all that matters.
    fn empty(&mut self) -> bool {
        let mut other = self.case.clone();
        other.mesh.sizes.fill(0);
        drain_corners(&mut other.mesh, 0..self.case.mesh.corners());
        relend(&mut other.mesh, &self.case.mesh);
        self.attempt(other)
    }

    /// Drops faces, many at once and then one by one.
    fn drop_faces(&mut self) -> bool {
        let mut taken = false;
        let mut many = self.case.mesh.sizes.len().div_ceil(2);
        while many > 0 {
            let mut from = 0;
            while from < self.case.mesh.sizes.len() {
                let to = (from + many).min(self.case.mesh.sizes.len());
                if self.attempt(without_faces(&self.case, from..to)) {
                    taken = true;
                } else {
                    from = to;
                }
            }
            many /= 2;
        }
        taken
    }

    /// Drops single corners, so that quads become triangles.
    fn drop_corners(&mut self) -> bool {
        let mut taken = false;
        for face in 0..self.case.mesh.sizes.len() {
            for corner in 0..usize::from(self.case.mesh.sizes[face]) {
                if corner < usize::from(self.case.mesh.sizes[face]) {
                    taken |= self.attempt(without_corner(&self.case, face, corner));
                }
            }
        }
        taken
    }

    /// Lends lists that are just long enough, or nearer to that.
    fn trim(&mut self) -> bool {
        let (answer, work) = (self.case.mesh.needed_answer(), self.case.mesh.needed_work());
        let mut taken = false;
        for more in [0, 1] {
            let mut other = self.case.clone();
            other.mesh.answer = other.mesh.answer.min(answer + more);
            taken |= self.attempt(other);
            let mut other = self.case.clone();
            other.mesh.work = other.mesh.work.min(work + more);
            taken |= self.attempt(other);
        }
        taken
    }

    /// Forgets that a mesh is a shuffle.
    fn unshuffle(&mut self) -> bool {
        self.attempt(Case {
            owners: vec![],
            ..self.case.clone()
        })
    }

    /// Puts simpler numbers in the place of others: everywhere at once, then one by one.
    fn simplify(&mut self) -> bool {
        let mut taken = self.simplify_threshold();
        for list in [positions, texture] {
            taken |= self.simplify_words(list) | self.simplify_places(list);
        }
        if !self.straighten() {
            taken |= self.simplify_words(normals) | self.simplify_places(normals);
        }
        taken
    }

    /// Puts (0, 0, 1) in the place of every normal; true if they are all that.
    fn straighten(&mut self) -> bool {
        let mut other = self.case.clone();
        other.mesh.normals = [0, 0, 1f32.to_bits()].repeat(other.mesh.corners());
        let straight = other.mesh.normals == self.case.mesh.normals;
        let lost = other.mesh.normals.len() != self.case.mesh.normals.len();
        straight || (!lost && self.attempt(other))
    }

    /// A simpler threshold.
    fn simplify_threshold(&mut self) -> bool {
        let candidates = simpler(self.case.mesh.threshold);
        candidates.into_iter().any(|threshold| {
            let mut other = self.case.clone();
            other.mesh.threshold = threshold;
            self.attempt(other)
        })
    }

    /// Puts a simpler number in the place of one number wherever it stands in a list, so that equal corners stay equal.
    fn simplify_words(&mut self, list: fn(&mut Mesh) -> &mut Vec<u32>) -> bool {
        let mut words = list(&mut self.case.mesh).clone();
        words.sort_unstable();
        words.dedup();
        let mut taken = false;
        for word in words {
            taken |= simpler(word).into_iter().any(|new| {
                let mut other = self.case.clone();
                list(&mut other.mesh)
                    .iter_mut()
                    .filter(|bits| **bits == word)
                    .for_each(|bits| *bits = new);
                self.attempt(other)
            });
        }
        taken
    }

    /// Puts a simpler number in the place of a single one.
    fn simplify_places(&mut self, list: fn(&mut Mesh) -> &mut Vec<u32>) -> bool {
        let mut taken = false;
        for i in 0..list(&mut self.case.mesh).len() {
            let word = list(&mut self.case.mesh)[i];
            taken |= simpler(word).into_iter().any(|new| {
                let mut other = self.case.clone();
                list(&mut other.mesh)[i] = new;
                self.attempt(other)
            });
        }
        taken
    }
}

/// The list of positions.
fn positions(mesh: &mut Mesh) -> &mut Vec<u32> {
    &mut mesh.positions
}

/// The list of normals.
fn normals(mesh: &mut Mesh) -> &mut Vec<u32> {
    &mut mesh.normals
}

/// The list of texture coordinates.
fn texture(mesh: &mut Mesh) -> &mut Vec<u32> {
    &mut mesh.texture
}

/// Numbers that are simpler than one, the simplest first.
fn simpler(word: u32) -> Vec<u32> {
    let x = f32::from_bits(word);
    let shorter = |digits: u32| f32::from_bits(word & (u32::MAX << (23 - digits)));
    let mut all = vec![
        0.0,
        1.0,
        -1.0,
        2.0,
        0.5,
        -0.0,
        x.trunc(),
        x.round(),
        shorter(0),
        shorter(4),
        shorter(12),
    ];
    all.retain(|other| weight(other.to_bits()) < weight(word));
    all.into_iter().map(f32::to_bits).collect()
}

/// How far a number is from simple: how long it is to write, after the six simplest.
fn weight(word: u32) -> usize {
    let simplest = [0.0f32, 1.0, -1.0, 2.0, 0.5, -0.0];
    let place = simplest.iter().position(|simple| simple.to_bits() == word);
    place.unwrap_or_else(|| 10 + number(word).len())
}

/// A case without some of its faces; the lent lists keep what they have more or less than needed.
fn without_faces(case: &Case, faces: Range<usize>) -> Case {
    let count = |faces: &[u8]| faces.iter().map(|&size| usize::from(size)).sum::<usize>();
    let first = count(&case.mesh.sizes[..faces.start]);
    let corners = first..first + count(&case.mesh.sizes[faces.clone()]);
    let mut other = case.clone();
    other.mesh.sizes.drain(faces.clone());
    if !other.owners.is_empty() {
        other.owners.drain(faces);
    }
    drain_corners(&mut other.mesh, corners);
    relend(&mut other.mesh, &case.mesh);
    other
}

/// A case without one corner of a face.
fn without_corner(case: &Case, face: usize, corner: usize) -> Case {
    let first: usize = case.mesh.sizes[..face]
        .iter()
        .map(|&size| usize::from(size))
        .sum();
    let mut other = case.clone();
    other.mesh.sizes[face] -= 1;
    drain_corners(&mut other.mesh, first + corner..first + corner + 1);
    relend(&mut other.mesh, &case.mesh);
    other
}

/// Takes the numbers of some corners out of the lists, as far as they are there.
fn drain_corners(mesh: &mut Mesh, corners: Range<usize>) {
    for (list, wide) in [
        (&mut mesh.positions, 3),
        (&mut mesh.normals, 3),
        (&mut mesh.texture, 2),
    ] {
        let end = (wide * corners.end).min(list.len());
        list.drain((wide * corners.start).min(end)..end);
    }
}

/// Lends lists that are as much longer or shorter than needed as those of another mesh.
fn relend(mesh: &mut Mesh, like: &Mesh) {
    mesh.answer = (like.answer + mesh.needed_answer()).saturating_sub(like.needed_answer());
    mesh.work = (like.work + mesh.needed_work()).saturating_sub(like.needed_work());
}
