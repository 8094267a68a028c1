//! What a call has to leave: a refusal, or the frames of the Rust crate; where a vector without a direction is met
//! (request E6) those of the altered copy. Where a frame came from and what stood behind it (request E7) is the altered copy's always.
use crate::mesh::{Mesh, SLOT_WORDS, framed};
use crate::ours::{Left, Outcome, fresh_answer, fresh_work};
use crate::refusals::refusal;
use bevy_mikktspace::{Ops, generate_tangents_with_threshold};
use std::panic::{AssertUnwindSafe, catch_unwind};

/// The first words of a slot, which the crate gives.
pub const CRATE_WORDS: usize = 10;

/// A mesh as the crate asks for it, and the list that takes its frames.
pub struct Asked<'a> {
    mesh: &'a Mesh,
    /// Where each face's corners and slots start.
    starts: Vec<(usize, usize)>,
    answer: &'a mut [u32],
}

impl<'a> Asked<'a> {
    pub fn new(mesh: &'a Mesh, answer: &'a mut [u32]) -> Asked<'a> {
        let (mut corners, mut slots) = (0, 0);
        let mut start = |&size: &u8| {
            let start = (corners, slots);
            corners += usize::from(size);
            slots += if framed(size) { usize::from(size) } else { 0 };
            start
        };
        let starts = mesh.sizes.iter().map(&mut start).collect();
        Asked {
            mesh,
            starts,
            answer,
        }
    }

    /// Has the crate write the first ten words of every slot, with the root and the angle of `O`.
    pub fn fill<O: Ops>(&mut self) {
        let threshold = f32::from_bits(self.mesh.threshold);
        let Ok(()) = generate_tangents_with_threshold::<_, O>(self, threshold) else {
            unreachable!("the crate's error type has no value");
        };
    }

    /// Has the altered copy write every slot, all of it; true if a vector without a direction was met.
    pub fn fill_altered<O: mikktspace_altered::Ops>(&mut self) -> bool {
        let threshold = f32::from_bits(self.mesh.threshold);
        mikktspace_altered::met::take();
        let Ok(()) = mikktspace_altered::generate_tangents_with_threshold::<_, O>(self, threshold)
        else {
            unreachable!("the crate's error type has no value");
        };
        mikktspace_altered::met::take()
    }

    /// Three numbers of a list of them, for a corner of a face.
    fn three(&self, list: &[u32], face: usize, corner: usize) -> [f32; 3] {
        let at = 3 * (self.starts[face].0 + corner);
        [list[at], list[at + 1], list[at + 2]].map(f32::from_bits)
    }

    /// The texture coordinates of a corner of a face.
    fn two(&self, face: usize, corner: usize) -> [f32; 2] {
        let at = 2 * (self.starts[face].0 + corner);
        [self.mesh.texture[at], self.mesh.texture[at + 1]].map(f32::from_bits)
    }

    /// Takes the first words of a corner of a face.
    fn set<const COUNT: usize>(&mut self, words: [u32; COUNT], face: usize, corner: usize) {
        let at = SLOT_WORDS * (self.starts[face].1 + corner);
        self.answer[at..at + COUNT].copy_from_slice(&words);
    }
}

/// Lets the crate, or its altered copy, ask for a mesh; both say the first ten words of a frame alike, and `$words` gives so many of it.
macro_rules! geometry {
    ($from:ident, $ten:ident, $words:ident, $count:expr) => {
        impl<O: $from::Ops> $from::Geometry<O> for Asked<'_> {
            fn num_faces(&self) -> usize {
                self.mesh.sizes.len()
            }

            fn num_vertices_of_face(&self, face: usize) -> usize {
                usize::from(self.mesh.sizes[face])
            }

            fn position(&self, face: usize, corner: usize) -> [f32; 3] {
                self.three(&self.mesh.positions, face, corner)
            }

            fn normal(&self, face: usize, corner: usize) -> [f32; 3] {
                self.three(&self.mesh.normals, face, corner)
            }

            fn tex_coord(&self, face: usize, corner: usize) -> [f32; 2] {
                self.two(face, corner)
            }

            fn set_tangent(
                &mut self,
                frame: Option<$from::TangentSpace>,
                face: usize,
                corner: usize,
            ) {
                let words = frame.map_or([0; $count], |frame| $words(&frame));
                self.set(words, face, corner);
            }
        }

        /// The first ten words of a slot that is present.
        fn $ten(frame: &$from::TangentSpace) -> [u32; CRATE_WORDS] {
            let [x, y, z] = frame.tangent().map(word);
            let [bx, by, bz] = frame.bi_tangent().map(word);
            let magnitudes = [frame.tangent_magnitude(), frame.bi_tangent_magnitude()].map(word);
            let way = u32::from(frame.is_orientation_preserving());
            [1, x, y, z, bx, by, bz, magnitudes[0], magnitudes[1], way]
        }
    };
}

geometry!(bevy_mikktspace, ten, ten, CRATE_WORDS);
geometry!(mikktspace_altered, altered_ten, twelve, SLOT_WORDS);

/// All words of a slot that is present, of the altered copy.
fn twelve(frame: &mikktspace_altered::TangentSpace) -> [u32; SLOT_WORDS] {
    let mut words = [0; SLOT_WORDS];
    words[..CRATE_WORDS].copy_from_slice(&altered_ten(frame));
    words[CRATE_WORDS..].copy_from_slice(&[frame.origin, frame.behind]);
    words
}

/// The bits of a number, and any NaN as 7FC00000.
fn word(x: f32) -> u32 {
    if x.is_nan() { 0x7FC0_0000 } else { x.to_bits() }
}

/// What a call has to leave, and whose frames they are.
pub struct Expected {
    pub left: Left,
    /// True where the crate is no judge: a vector without a direction was met, and the frames are the altered copy's.
    pub amended: bool,
}

/// What the call has to leave of fresh lists; an error says that one of the two panicked, or that they differ where request E6 does not speak.
pub fn left<O: Ops + mikktspace_altered::Ops>(mesh: &Mesh) -> Result<Expected, String> {
    let (mut answer, mut work) = (fresh_answer(mesh.answer), fresh_work(mesh.work));
    if let Some((number, place)) = refusal(mesh) {
        let outcome = Outcome {
            number,
            place,
            slots: 0,
        };
        return Ok(Expected {
            left: Left {
                outcome,
                answer,
                work,
            },
            amended: false,
        });
    }
    let amended = frames::<O>(mesh, &mut answer)?;
    work[..mesh.needed_work()].fill(0);
    let outcome = Outcome {
        number: 0,
        place: 0,
        slots: mesh.slots() as u32,
    };
    Ok(Expected {
        left: Left {
            outcome,
            answer,
            work,
        },
        amended,
    })
}

/// Has the frames written, all words by the altered copy. Where it met a vector without a direction that is all, and it is true; elsewhere
/// the crate writes its ten words over the copy's, and they have to be the same.
fn frames<O: Ops + mikktspace_altered::Ops>(
    mesh: &Mesh,
    answer: &mut [u32],
) -> Result<bool, String> {
    let mut altered = answer.to_vec();
    let mut asked = Asked::new(mesh, &mut altered);
    let met = catch_unwind(AssertUnwindSafe(|| asked.fill_altered::<O>()))
        .map_err(|_| "the altered copy panicked")?;
    answer.copy_from_slice(&altered);
    if met {
        return Ok(true);
    }
    let mut asked = Asked::new(mesh, answer);
    catch_unwind(AssertUnwindSafe(|| asked.fill::<O>())).map_err(|_| "the crate panicked")?;
    if altered == answer {
        Ok(false)
    } else {
        Err(
            "no vector without a direction was met, but the altered copy differs from the crate"
                .into(),
        )
    }
}
