//! What is handed in and lent in one call.
use dokphalun_sys as archive;
use models::Faces;
use models::oracle::Call;

/// The words of a slot (request E7), written out once more, so that the bindings' number is held against something else.
pub const SLOT_WORDS: usize = 12;

/// The bits of a corner's eight numbers: position, normal, texture.
pub type Corner = [u32; 8];

/// A call: the lists that are handed in, as bits, and how many words are lent.
#[derive(Clone, Debug, Default, PartialEq)]
pub struct Mesh {
    pub sizes: Vec<u8>,
    pub positions: Vec<u32>,
    pub normals: Vec<u32>,
    pub texture: Vec<u32>,
    pub threshold: u32,
    pub answer: usize,
    pub work: usize,
}

/// A call to compare, and what is known of it from how it was made.
#[derive(Clone, Debug, Default, PartialEq)]
pub struct Case {
    pub mesh: Mesh,
    /// Which of two meshes each face is of, 0 or 1, in a shuffle; else empty.
    pub owners: Vec<u8>,
    /// The number and place that the call was made for, where that is known.
    pub foreseen: Option<(u32, u32)>,
}

/// The corner with these numbers.
pub fn corner(position: [f32; 3], normal: [f32; 3], texture: [f32; 2]) -> Corner {
    let ([x, y, z], [nx, ny, nz], [u, v]) = (position, normal, texture);
    [x, y, z, nx, ny, nz, u, v].map(f32::to_bits)
}

/// True for a face that has slots.
pub fn framed(size: u8) -> bool {
    size == 3 || size == 4
}

/// Bits as the numbers that they are.
pub fn numbers(bits: &[u32]) -> &[f32] {
    // SAFETY: a number is as large as its bits and stands as they do, and any bits are a number
    unsafe { std::slice::from_raw_parts(bits.as_ptr().cast(), bits.len()) }
}

/// The same of bits that are altered.
pub fn numbers_mut(bits: &mut [u32]) -> &mut [f32] {
    // SAFETY: as above, and any number is bits
    unsafe { std::slice::from_raw_parts_mut(bits.as_mut_ptr().cast(), bits.len()) }
}

impl Mesh {
    /// The lists that are handed in.
    pub fn handed(&self) -> archive::Mesh<'_> {
        archive::Mesh {
            sizes: &self.sizes,
            positions: numbers(&self.positions),
            normals: numbers(&self.normals),
            texture: numbers(&self.texture),
        }
    }

    /// Adds a face with these corners.
    pub fn push(&mut self, corners: &[Corner]) {
        self.sizes.push(corners.len() as u8);
        for corner in corners {
            self.positions.extend(&corner[0..3]);
            self.normals.extend(&corner[3..6]);
            self.texture.extend(&corner[6..8]);
        }
    }

    /// The mesh of these faces, with a threshold and lent lists that are just long enough.
    pub fn of(faces: &[Vec<Corner>], threshold: u32) -> Mesh {
        let mut mesh = Mesh {
            threshold,
            ..Mesh::default()
        };
        faces.iter().for_each(|face| mesh.push(face));
        mesh.lend(0, 0);
        mesh
    }

    /// The same of faces that are numbers.
    pub fn from_faces(faces: &Faces, threshold: u32) -> Mesh {
        let bits = |list: &[f32]| list.iter().map(|number| number.to_bits()).collect();
        let mut mesh = Mesh {
            sizes: faces.sizes.clone(),
            positions: bits(faces.positions.as_flattened()),
            normals: bits(faces.normals.as_flattened()),
            texture: bits(faces.texture.as_flattened()),
            threshold,
            ..Mesh::default()
        };
        mesh.lend(0, 0);
        mesh
    }

    /// Lends lists of so many words more than needed.
    pub fn lend(&mut self, answer: usize, work: usize) {
        self.answer = self.needed_answer() + answer;
        self.work = self.needed_work() + work;
    }

    /// S: how many slots there are.
    pub fn slots(&self) -> usize {
        self.sizes
            .iter()
            .filter(|&&size| framed(size))
            .map(|&size| usize::from(size))
            .sum()
    }

    /// C: how many corners there are.
    pub fn corners(&self) -> usize {
        self.sizes.iter().map(|&size| usize::from(size)).sum()
    }

    /// 12S.
    pub fn needed_answer(&self) -> usize {
        SLOT_WORDS * self.slots()
    }

    /// 128F.
    pub fn needed_work(&self) -> usize {
        128 * self.sizes.len()
    }

    /// The corners of every face, for lists of the right lengths.
    pub fn faces(&self) -> Vec<Vec<Corner>> {
        let mut first = 0;
        let mut face = |&size: &u8| {
            let corners = first..first + usize::from(size);
            first = corners.end;
            corners.map(|i| self.corner(i)).collect()
        };
        self.sizes.iter().map(&mut face).collect()
    }

    /// Corner number `i` of all C.
    pub fn corner(&self, i: usize) -> Corner {
        let [x, y, z] = [0, 1, 2].map(|k| self.positions[3 * i + k]);
        let [nx, ny, nz] = [0, 1, 2].map(|k| self.normals[3 * i + k]);
        [
            x,
            y,
            z,
            nx,
            ny,
            nz,
            self.texture[2 * i],
            self.texture[2 * i + 1],
        ]
    }
}

impl From<Call> for Mesh {
    /// A call of the oracle's files.
    fn from(call: Call) -> Mesh {
        let [positions, normals, texture] = call.lists;
        Mesh {
            sizes: call.sizes,
            positions,
            normals,
            texture,
            threshold: call.threshold,
            answer: call.answer,
            work: call.work,
        }
    }
}

impl From<Mesh> for Case {
    /// A case of which nothing is known.
    fn from(mesh: Mesh) -> Case {
        Case {
            mesh,
            ..Case::default()
        }
    }
}
