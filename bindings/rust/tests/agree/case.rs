//! Random cases: a mesh, and records of any words.
use models::random::Random;
use models::{Corner, Faces};

/// The most faces and records of a case.
const MOST: [usize; 2] = [16, 40];

/// A mesh, its threshold, records, and numbers by which a word is chosen that is changed.
pub struct Case {
    pub faces: Faces,
    pub threshold: f32,
    /// Which row, byte or slot is changed.
    pub row: usize,
    /// How long the card is that is read or appended to.
    pub length: usize,
    /// Twelve words a record.
    pub words: Vec<u32>,
}

/// A corner of a small pool, whose texture runs at scales of its own.
fn corner(random: &mut Random, scales: [f32; 2]) -> Corner {
    let [x, y, z] = [0; 3].map(|_| random.below(3) as f32);
    let normal = [0.1 * x, 0.2 * y, 1.0];
    ([x, y, 0.25 * z], normal, [scales[0] * x, scales[1] * y])
}

/// A number that counts as zero, or in one of eight the next that does not.
fn near_zero(random: &mut Random) -> f32 {
    let bits = if random.chance(1, 8) {
        0x0080_0001
    } else {
        random.pick(&[0, 0, 0x8000_0000, 1, 0x0080_0000, 0x8080_0000])
    };
    f32::from_bits(bits)
}

/// Faces of two to five corners; in one of four meshes a number is not finite, in one of four some normals are zero or next to it.
fn faces(random: &mut Random) -> Faces {
    let scales = [0; 2].map(|_| random.pick(&[0.5, 1.5, 3.0, -2.0]));
    let count = random.below(MOST[0] + 1);
    let mut faces = Faces::default();
    for _ in 0..count {
        let size = random.pick(&[2, 3, 3, 4, 4, 5]);
        let corners: Vec<Corner> = (0..size).map(|_| corner(random, scales)).collect();
        faces.push(&corners);
    }
    if count > 0 && random.chance(1, 4) {
        let at = random.below(faces.texture.len());
        faces.texture[at][1] = f32::NAN;
    }
    if count > 0 && random.chance(1, 4) {
        for _ in 0..random.from_to(1, 3) {
            let at = random.below(faces.normals.len());
            faces.normals[at] = [0; 3].map(|_| near_zero(random));
        }
    }
    faces
}

/// A direction at the edges of what is one, and of what is packed as one.
fn edge(random: &mut Random) -> [u32; 3] {
    let sizes = [
        0,
        0x0080_0000,
        0x0080_0001,
        0x3780_0100,
        0x3780_0101,
        0x3f80_0008,
        0x3f80_0009,
    ];
    [0; 3].map(|_| random.pick(&sizes[..5]).max(random.pick(&sizes)) | random.pick(&[0, 1 << 31]))
}

/// A record: present or not, numbers that can be packed most of the time, magnitudes of any bits, an orientation that in one of sixteen is
/// none, an origin that can be none of those that there are, and any count.
fn record(random: &mut Random) -> [u32; 12] {
    let mut words = [0; 12].map(|_| random.signed().to_bits());
    words[0] = random.below(2) as u32;
    words[7] = random.word();
    words[8] = random.word();
    words[9] = random.below(2) as u32;
    words[10] = random.below(6) as u32;
    words[11] = random.word();
    if random.chance(1, 8) {
        words[random.from_to(1, 6)] = random.word();
    }
    if random.chance(1, 4) {
        let at = random.pick(&[1, 4]);
        words[at..at + 3].copy_from_slice(&edge(random));
    }
    if random.chance(1, 16) {
        words[9] = random.pick(&[2, u32::MAX]);
    }
    words
}

impl Case {
    /// A random case.
    pub fn of(random: &mut Random) -> Case {
        let records = random.below(MOST[1] + 1);
        Case {
            faces: faces(random),
            threshold: random.pick(&[-1.0, -1.0, 0.5, 0.99, f32::NAN]),
            row: random.below(1 << 20),
            length: random.below(512 * 5),
            words: (0..records).flat_map(|_| record(random)).collect(),
        }
    }

    /// How many records there are.
    pub fn records(&self) -> u32 {
        (self.words.len() / 12) as u32
    }

    /// The same records as an old card has them: the first ten words of each.
    pub fn old_words(&self) -> Vec<u32> {
        let records = self.words.as_chunks::<12>().0;
        records
            .iter()
            .flat_map(|words| words[..10].to_vec())
            .collect()
    }

    /// Those again as slots: two zeros follow the ten words of each.
    pub fn widened(&self) -> Vec<u32> {
        let mut slots = self.words.clone();
        let slots_of_twelve = slots.as_chunks_mut::<12>().0;
        slots_of_twelve
            .iter_mut()
            .for_each(|slot| slot[10..].fill(0));
        slots
    }

    /// A card with blocks of both kinds: those of the old card where the row's binary digits are 1, as long as the case has it.
    pub fn mixed(&self, mut new: Vec<u8>, old: &[u8]) -> Vec<u8> {
        let blocks = new.chunks_exact_mut(512).zip(old.chunks_exact(512));
        for (_, (new, old)) in blocks.enumerate().filter(|(b, _)| self.row >> b & 1 == 1) {
            new.copy_from_slice(old);
        }
        new.truncate(self.length);
        new
    }

    /// The words that every_call.c takes.
    pub fn input(&self) -> Vec<u32> {
        let faces = &self.faces;
        let (row, length) = (self.row as u32, self.length as u32);
        let counts = [faces.sizes.len() as u32, faces.positions.len() as u32];
        let head = [self.threshold.to_bits(), row, length, self.records()];
        let sizes = faces.sizes.iter().map(|&size| u32::from(size));
        let numbers = [
            faces.positions.as_flattened(),
            faces.normals.as_flattened(),
            faces.texture.as_flattened(),
        ];
        let bits = numbers.concat().into_iter().map(f32::to_bits);
        let words = self.words.iter().copied();
        let mesh = counts.into_iter().chain(head).chain(sizes).chain(bits);
        mesh.chain(words).collect()
    }
}
