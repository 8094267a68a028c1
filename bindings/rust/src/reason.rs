//! Why a slot is absent.
use crate::buffers::{Answer, Buffers};
use crate::mesh::{Mesh, Place, slots};
use crate::refusal::Refusal;
use dokphalun_sys::{self as archive, reason};

/// Why a slot is absent. That each absent slot has one of these, and just one, is proved.
#[derive(Clone, Copy, Debug, PartialEq, Eq)]
pub enum Reason {
    /// 1: its corner is one of a degenerate triangle whose face is no marked quad, and no sound corner is welded to it.
    Unwelded,
    /// 2: it copies a corner that is absent itself.
    CopiesAbsent,
    /// 3: it belongs to sound triangles, all of them `group_with_any`, and no group reached it.
    Unreached,
}

impl Reason {
    /// The reason of a byte of the archive's; none for a slot that is not absent.
    fn of(byte: u8) -> Option<Reason> {
        match byte {
            reason::NONE => None,
            reason::UNWELDED => Some(Reason::Unwelded),
            reason::COPIES_ABSENT => Some(Reason::CopiesAbsent),
            reason::UNREACHED => Some(Reason::Unreached),
            _ => panic!("the archive has no reason {byte}"),
        }
    }

    /// Its words for a reader, without a comma.
    pub fn words(self) -> &'static str {
        match self {
            Reason::Unwelded => {
                "it is a corner of a degenerate triangle and no sound corner is welded to it"
            }
            Reason::CopiesAbsent => "it copies a corner that is absent itself",
            Reason::Unreached => "all its triangles are group_with_any and no group reached it",
        }
    }
}

/// The readings of a mesh, and why those that are absent are absent.
#[derive(Clone, Copy, Debug)]
pub struct Explained<'a> {
    /// The readings, made by the same call: the same words as from [`Buffers::frames`].
    pub answer: Answer<'a>,
    sizes: &'a [u8],
    bytes: &'a [u8],
}

impl<'a> Explained<'a> {
    /// Each slot: its face and corner, and why it is absent; nothing where it is not.
    pub fn reasons(&self) -> impl Iterator<Item = (Place, Option<Reason>)> + Clone + use<'a> {
        let reasons = self.bytes.iter().map(|&byte| Reason::of(byte));
        slots(self.sizes).zip(reasons)
    }
}

impl Buffers {
    /// The frames of a mesh, as [`Buffers::frames`] makes them, and why each absent slot is absent, by one call. It takes more time than
    /// frames alone.
    pub fn reasons<'a>(
        &'a mut self,
        mesh: Mesh<'a>,
        threshold: f32,
    ) -> Result<Explained<'a>, Refusal> {
        let slots = self.lend(mesh.sizes);
        self.reasons.clear();
        self.reasons.resize(slots, reason::NONE);
        let (answer, work) = (&mut self.answer, &mut self.work);
        let said = archive::reasons(mesh.flat(), threshold, answer, work, &mut self.reasons);
        match Refusal::of(said.number, said.place, mesh.sizes) {
            Some(refusal) => Err(refusal),
            None => {
                let made = self.judged();
                Ok(Explained {
                    answer: made.answer(mesh.sizes, 1),
                    sizes: mesh.sizes,
                    bytes: &made.reasons,
                })
            }
        }
    }
}
