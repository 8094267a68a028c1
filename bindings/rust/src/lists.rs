//! Lists of links, groups and orientations: a partner's, which are examined, and our own, which are handed out.
use crate::buffers::Buffers;
use crate::mesh::{MOST_FACES, Mesh};
use crate::objection::Objection;
use crate::refusal::Refusal;
use dokphalun_sys::{self as archive, LINK_ENTRIES};

/// Lists that say how the N sound triangles of a mesh ([`crate::triangles`]) hang together. Row 3t + i is of corner i (0, 1,
/// 2) of triangle t, and of the side that runs from it to the next corner. Nothing is checked here; the archive checks it.
#[derive(Clone, Copy, Debug, PartialEq, Eq)]
pub struct Lists<'a> {
    /// 3N words: 0 where the side is not linked, else the row of the side beyond, plus 1.
    pub links: &'a [u32],
    /// 3N words: 0 where the corner is in no group, else any number; corners of equal numbers are in one group.
    pub groups: &'a [u32],
    /// N words: 1 where the triangle's texture runs round it as its corners do, 0 where it is mirrored.
    pub orientations: &'a [u32],
}

/// The lists that our own steps 5 and 6 make.
#[derive(Clone, Debug, Default, PartialEq, Eq)]
pub struct OwnLinks {
    /// As [`Lists::links`].
    pub links: Vec<u32>,
    /// As [`Lists::groups`].
    pub groups: Vec<u32>,
    /// As [`Lists::orientations`].
    pub orientations: Vec<u32>,
}

impl OwnLinks {
    /// The same lists, to be examined.
    pub fn lists(&self) -> Lists<'_> {
        Lists {
            links: &self.links,
            groups: &self.groups,
            orientations: &self.orientations,
        }
    }

    /// Lists that are long enough for so many faces.
    fn lent(faces: usize) -> OwnLinks {
        let [links, groups, orientations] = LINK_ENTRIES.map(|words| vec![0; words * faces]);
        OwnLinks {
            links,
            groups,
            orientations,
        }
    }

    /// Leaves the words of so many triangles.
    fn cut(&mut self, sound: usize) {
        self.links.truncate(3 * sound);
        self.groups.truncate(3 * sound);
        self.orientations.truncate(sound);
    }
}

impl Buffers {
    /// Examines lists that somebody else made for a mesh: they are accepted, or the first objection to them is given, at its
    /// lowest place. A mesh that is refused is [`Objection::Refused`]. docs/EXAMINER.md says what is asked of the lists.
    pub fn examine(&mut self, mesh: Mesh, lists: Lists) -> Result<(), Objection> {
        self.lend(mesh.sizes);
        let (links, groups) = (lists.links, lists.groups);
        let (mesh_lists, work) = (mesh.flat(), &mut self.work);
        let said = archive::examine(mesh_lists, links, groups, lists.orientations, work);
        match Refusal::of(said.refusal, said.place, mesh.sizes) {
            Some(refusal) => Err(Objection::Refused(refusal)),
            None => Objection::of(said.objection, said.place, mesh, lists),
        }
    }

    /// The links, groups and orientations that our own frames of a mesh rest on. They are always accepted.
    pub fn links(&mut self, mesh: Mesh) -> Result<OwnLinks, Refusal> {
        self.lend(mesh.sizes);
        let mut own = OwnLinks::lent(mesh.sizes.len().min(MOST_FACES));
        let (links, groups) = (&mut own.links, &mut own.groups);
        let (orientations, work) = (&mut own.orientations, &mut self.work);
        let said = archive::links(mesh.flat(), links, groups, orientations, work);
        match Refusal::of(said.number, said.place, mesh.sizes) {
            Some(refusal) => Err(refusal),
            None => {
                own.cut(said.sound as usize);
                Ok(own)
            }
        }
    }
}
