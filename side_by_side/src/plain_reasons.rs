//! Why a slot is absent, by a plain model: document 01's step 9 and the request's three reasons, over the plain steps 1 to 6; and slips in it.
use crate::plain_steps::{Corner, Model, Triangle};

/// The slot is there.
pub const THERE: u8 = 0;
/// Its corner is one of a degenerate triangle whose face is no marked quad, and no sound corner is welded to it.
pub const UNWELDED: u8 = 1;
/// It copies a corner that is absent itself.
pub const COPYING: u8 = 2;
/// It belongs to sound triangles, all of them `group_with_any`, and no group reached it.
pub const UNREACHED: u8 = 3;

/// The parts of the model in which slips are tried.
#[derive(Clone, Copy)]
pub struct Plain {
    /// The row of a sound triangle, if any, that the row of a degenerate one copies.
    welded: fn(&Model, usize) -> Option<usize>,
    /// Whether the missing corner of a marked quad copies a kept one.
    placed: fn(&Corner, &Corner) -> bool,
    /// Whether a row of a sound triangle has a frame.
    reached: fn(&Model, usize) -> bool,
    /// Whether a marked quad's missing corner copies within the quad.
    within: bool,
    /// The reason of a slot that copies another, by that one's reason, if there is one.
    copied: fn(Option<u8>) -> u8,
    /// The reason as it is told.
    told: fn(u8) -> u8,
}

/// The model without a slip.
pub const PLAIN: Plain = Plain {
    welded: |model, row| Some(model.vertices[row]).filter(|first| *first < 3 * model.sound),
    placed: |missing, kept| missing.place == kept.place,
    reached: |model, row| model.group[row] != 0,
    within: true,
    copied: |source| match source {
        Some(THERE) => THERE,
        Some(_) => COPYING,
        None => UNWELDED,
    },
    told: |reason| reason,
};

impl Plain {
    /// Why each of so many slots is absent.
    pub fn reasons(&self, model: &Model, slots: usize) -> Vec<u8> {
        let mut reasons = vec![THERE; slots];
        let rows = 3 * model.sound;
        let reached = (0..rows).filter(|row| (self.reached)(model, *row));
        let reached: Vec<usize> = reached.map(|row| slot(model, row)).collect();
        (0..rows).for_each(|row| reasons[slot(model, row)] = UNREACHED);
        reached.iter().for_each(|slot| reasons[*slot] = THERE);
        // what no group reached is of triangles that are all `group_with_any`
        let mut starting = (0..rows).filter(|row| !model.triangles[row / 3].any);
        assert!(starting.all(|row| reasons[slot(model, row)] == THERE));
        // step 9 alters no slot that is copied
        let brought = reasons.clone();
        let because = |source: Option<usize>| {
            (self.copied)(source.map(|source| brought[slot(model, source)]))
        };
        for row in rows..3 * model.triangles.len() {
            let (place, source) = (slot(model, row), (self.welded)(model, row));
            match kept_beside(model, row) {
                None => reasons[place] = because(source),
                Some(kept) if !model.triangles[kept].which.contains(&which(model, row)) => {
                    let within = (3 * kept..3 * kept + 3)
                        .find(|other| (self.placed)(corner(model, row), corner(model, *other)));
                    reasons[place] = because(if self.within { within } else { source });
                }
                Some(_) => {}
            }
        }
        reasons.into_iter().map(self.told).collect()
    }
}

/// The sound triangle of the marked quad, if it is one, that a row of a degenerate triangle is of.
fn kept_beside(model: &Model, row: usize) -> Option<usize> {
    let broken = &model.triangles[row / 3];
    let sound = &model.triangles[..model.sound];
    let beside = |kept: &Triangle| kept.face.cmp(&broken.face);
    // sound triangles stand in slot order, and a marked quad has one
    let kept = broken.marked.then(|| sound.binary_search_by(beside));
    kept.map(|found| found.expect("a marked quad has a sound triangle"))
}

/// The corner of its face that a row's is.
fn which(model: &Model, row: usize) -> usize {
    model.triangles[row / 3].which[row % 3]
}

/// The slot of a row.
fn slot(model: &Model, row: usize) -> usize {
    model.slot_starts[model.triangles[row / 3].face] + which(model, row)
}

/// The corner of a row.
fn corner(model: &Model, row: usize) -> &Corner {
    &model.triangles[row / 3].corners[row % 3]
}

/// The slips: what is altered, and the model altered so.
pub const SLIPS: [(&str, Plain); 10] = [
    (
        "reasons 1 and 2 exchanged",
        telling(|reason| exchanged(reason, UNWELDED, COPYING)),
    ),
    (
        "reasons 2 and 3 exchanged",
        telling(|reason| exchanged(reason, COPYING, UNREACHED)),
    ),
    (
        "reasons 1 and 3 exchanged",
        telling(|reason| exchanged(reason, UNWELDED, UNREACHED)),
    ),
    (
        "a copy has the reason of what it copies",
        Plain {
            copied: |source| source.unwrap_or(UNWELDED),
            ..PLAIN
        },
    ),
    (
        "what is not welded copies",
        Plain {
            copied: |source| {
                if source == Some(THERE) {
                    THERE
                } else {
                    COPYING
                }
            },
            ..PLAIN
        },
    ),
    (
        "-0.0 and 0.0 are welded",
        Plain {
            welded: |model, row| {
                let numbers = |row| corner(model, row).bits().map(f32::from_bits);
                (0..3 * model.sound).find(|other| numbers(*other) == numbers(row))
            },
            ..PLAIN
        },
    ),
    (
        "-0.0 is another place than 0.0",
        Plain {
            placed: |missing, kept| missing.bits()[..3] == kept.bits()[..3],
            ..PLAIN
        },
    ),
    (
        "the last sound corner is copied",
        Plain {
            welded: |model, row| {
                let bits = |row| corner(model, row).bits();
                (0..3 * model.sound).rfind(|other| bits(*other) == bits(row))
            },
            ..PLAIN
        },
    ),
    (
        "marked quads copy from sound corners",
        Plain {
            within: false,
            ..PLAIN
        },
    ),
    (
        "no group reaches what is `group_with_any`",
        Plain {
            reached: |model, row| !model.triangles[row / 3].any,
            ..PLAIN
        },
    ),
];

/// The model that tells another reason.
const fn telling(told: fn(u8) -> u8) -> Plain {
    Plain { told, ..PLAIN }
}

/// A reason, with two of them exchanged.
fn exchanged(reason: u8, a: u8, b: u8) -> u8 {
    match reason {
        _ if reason == a => b,
        _ if reason == b => a,
        _ => reason,
    }
}

#[cfg(test)]
mod tests {
    use super::PLAIN;
    use crate::plain_steps::model;
    use models::{Corner, Faces, flat};

    /// The corners of the unit square, whose texture is their place.
    const A: Corner = flat([0.0, 0.0]);
    const B: Corner = flat([1.0, 0.0]);
    const C: Corner = flat([1.0, 1.0]);
    const D: Corner = flat([0.0, 1.0]);

    /// A corner whose texture is that of every other such one.
    fn blank(corner: Corner) -> Corner {
        (corner.0, corner.1, [0.5, 0.5])
    }

    /// The reasons of faces.
    fn reasons(faces: &[&[Corner]]) -> Vec<u8> {
        let faces = Faces::of(faces);
        let numbers = [
            faces.positions.as_flattened().to_vec(),
            faces.normals.as_flattened().to_vec(),
            faces.texture.as_flattened().to_vec(),
        ];
        let model = model(&faces.sizes, &numbers);
        PLAIN.reasons(&model, faces.positions.len())
    }

    #[test]
    fn each_reason() {
        let [a, b, c] = [A, B, C].map(blank);
        assert_eq!(reasons(&[&[A, B, C]]), [0, 0, 0]);
        assert_eq!(reasons(&[&[A, B, B]]), [1, 1, 1]);
        assert_eq!(reasons(&[&[a, b, c]]), [3, 3, 3]);
        // a degenerate triangle copies what is there, what is absent, and what is not welded
        assert_eq!(
            reasons(&[&[A, D, D], &[a, D, D], &[A, B, C], &[a, b, c]]),
            [0, 1, 1, 2, 1, 1, 0, 0, 0, 3, 3, 3]
        );
    }

    #[test]
    fn marked_quads() {
        // the missing corner copies within the quad, by position
        assert_eq!(reasons(&[&[A, B, B, D]]), [0; 4]);
        let [a, b, d] = [A, B, D].map(blank);
        let beside = reasons(&[&[a, b, b, d]]);
        assert_eq!(beside.iter().filter(|reason| **reason == 2).count(), 1);
        assert_eq!(beside.iter().filter(|reason| **reason == 3).count(), 3);
        // a quad of two degenerate triangles is not marked
        assert_eq!(reasons(&[&[A, B, A, B]]), [1; 4]);
    }

    #[test]
    fn either_zero() {
        let turned = |(position, normal, texture): Corner| {
            let [x, y, _] = position;
            ([x, y, -0.0], normal, texture)
        };
        // no corner is welded to one with another zero, but a missing corner has its place
        assert_eq!(
            reasons(&[&[turned(A), D, D], &[A, B, C]]),
            [1, 1, 1, 0, 0, 0]
        );
        assert_eq!(reasons(&[&[A, B, turned(B), D]]), [0; 4]);
    }
}
