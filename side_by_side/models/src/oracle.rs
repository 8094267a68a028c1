//! The oracle's files of meshes and answers.
use dokphalun_sys::{Mesh, Outcome, frames};

/// A mesh as it is handed in, and the lengths of the lists that are lent.
#[derive(Clone)]
pub struct Call {
    pub sizes: Vec<u8>,
    pub lists: [Vec<u32>; 3],
    pub threshold: u32,
    pub answer: usize,
    pub work: usize,
}

impl Call {
    /// The three lists as numbers.
    fn numbers(&self) -> [Vec<f32>; 3] {
        self.lists
            .clone()
            .map(|l| l.into_iter().map(f32::from_bits).collect())
    }

    /// What is made of the mesh that is handed in.
    pub fn with_mesh<T>(&self, make: impl FnOnce(Mesh) -> T) -> T {
        let [positions, normals, texture] = self.numbers();
        make(Mesh {
            sizes: &self.sizes,
            positions: &positions,
            normals: &normals,
            texture: &texture,
        })
    }

    /// What our call for frames says, and both lists as it leaves them.
    pub fn framed(&self) -> (Outcome, Vec<u32>, Vec<u32>) {
        let (mut answer, mut work) = (self.fresh_answer(), self.fresh_work());
        let threshold = f32::from_bits(self.threshold);
        let said = self.with_mesh(|mesh| frames(mesh, threshold, &mut answer, &mut work));
        (said, answer, work)
    }

    /// The answer list as it is lent.
    pub fn fresh_answer(&self) -> Vec<u32> {
        (0xA5A5_0000..).take(self.answer).collect()
    }

    /// The work list as it is lent.
    pub fn fresh_work(&self) -> Vec<u32> {
        (0x5A5A_0000..).take(self.work).collect()
    }
}

/// What a call left, as an out file has it: number, place and slots, the answer list, and the work list by its hash.
#[derive(Debug, PartialEq)]
pub struct Answer {
    pub number: u32,
    pub place: u32,
    pub slots: u32,
    pub words: Vec<u32>,
    pub hash: u32,
}

/// The hash of a work list.
pub fn hash(work: &[u32]) -> u32 {
    work.iter().fold(2_166_136_261, |hash, word| {
        (hash ^ word).wrapping_mul(16_777_619)
    })
}

/// Little-endian words of a file, one after the other.
pub struct Words<'a>(pub &'a [u8]);

impl Words<'_> {
    fn bytes(&mut self, count: usize) -> Vec<u8> {
        let (taken, rest) = self.0.split_at(count);
        self.0 = rest;
        taken.to_vec()
    }

    fn words(&mut self, count: usize) -> Vec<u32> {
        self.bytes(4 * count)
            .chunks_exact(4)
            .map(|b| u32::from_le_bytes([b[0], b[1], b[2], b[3]]))
            .collect()
    }

    /// The next mesh of an ext file, if there is one more.
    pub fn next_call(&mut self) -> Option<Call> {
        (!self.0.is_empty()).then(|| self.call())
    }

    /// The next mesh of an ext file.
    pub fn call(&mut self) -> Call {
        let head = self.words(7);
        let sizes = self.bytes(head[0] as usize);
        let lists = [1, 2, 3].map(|i| self.words(head[i] as usize));
        Call {
            sizes,
            lists,
            threshold: head[6],
            answer: head[4] as usize,
            work: head[5] as usize,
        }
    }

    /// The next answer of an out file.
    pub fn answer(&mut self) -> Answer {
        let head = self.words(4);
        Answer {
            number: head[0],
            place: head[1],
            slots: head[2],
            words: self.words(head[3] as usize),
            hash: self.words(1)[0],
        }
    }
}
