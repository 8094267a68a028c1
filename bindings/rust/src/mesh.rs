//! What is handed in, and where its corners are.
use dokphalun_sys as archive;
use std::fmt;

pub use archive::MOST_FACES;

/// The greatest number of slots that a mesh can have: four a face.
pub const MOST_SLOTS: usize = 4 * MOST_FACES;

/// A mesh: lists that stand corner by corner in face order. Nothing is checked here; the archive checks all of it, once.
#[derive(Clone, Copy, Debug)]
pub struct Mesh<'a> {
    /// How many corners each face has. Faces of 3 or 4 get frames; others take no slot.
    pub sizes: &'a [u8],
    /// A position for each corner.
    pub positions: &'a [[f32; 3]],
    /// A normal for each corner.
    pub normals: &'a [[f32; 3]],
    /// Texture coordinates for each corner.
    pub texture: &'a [[f32; 2]],
}

impl<'a> Mesh<'a> {
    /// The same lists as the archive takes them, number by number.
    pub(crate) fn flat(self) -> archive::Mesh<'a> {
        archive::Mesh {
            sizes: self.sizes,
            positions: self.positions.as_flattened(),
            normals: self.normals.as_flattened(),
            texture: self.texture.as_flattened(),
        }
    }

    /// The part of a list that belongs to a face, where it stands: the numbers that list `list` of the archive has, `N` a corner.
    fn part<const N: usize>(self, list: u32, all: &'a [[f32; N]], face: usize) -> &'a [[f32; N]] {
        let span = archive::part(self.flat(), list, face);
        &all[span.from / N..(span.from + span.count) / N]
    }

    /// The positions of a face, where they stand in their list: nothing for a face number that is not below the number of faces, and for
    /// lists that refusal 1 or 2 would catch. The archive says where; it adds up the sizes of the faces before.
    pub fn positions_of(self, face: usize) -> &'a [[f32; 3]] {
        self.part(0, self.positions, face)
    }

    /// The normals of a face, in the same way.
    pub fn normals_of(self, face: usize) -> &'a [[f32; 3]] {
        self.part(1, self.normals, face)
    }

    /// The texture coordinates of a face, in the same way.
    pub fn texture_of(self, face: usize) -> &'a [[f32; 2]] {
        self.part(2, self.texture, face)
    }
}

/// A corner of a mesh; both are counted from 0.
#[derive(Clone, Copy, Debug, PartialEq, Eq)]
pub struct Place {
    /// The face.
    pub face: usize,
    /// The corner of the face.
    pub corner: usize,
}

impl fmt::Display for Place {
    fn fmt(&self, f: &mut fmt::Formatter) -> fmt::Result {
        write!(f, "face {}, corner {}", self.face, self.corner)
    }
}

/// Whether a face of this size gets frames.
pub fn takes_slots(size: u8) -> bool {
    size == 3 || size == 4
}

/// The corners of all faces of these sizes, in order.
pub fn corners(sizes: &[u8]) -> impl Iterator<Item = Place> + Clone {
    sizes.iter().enumerate().flat_map(|(face, &size)| {
        let size = usize::from(size);
        (0..size).map(move |corner| Place { face, corner })
    })
}

/// The corners that take a slot, in the order of the slots.
pub fn slots(sizes: &[u8]) -> impl Iterator<Item = Place> + Clone {
    corners(sizes).filter(|place| takes_slots(sizes[place.face]))
}
