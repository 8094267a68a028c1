//! The calls: a list passes as a pointer to its first element and a number of elements.
use crate::said::*;

#[rustfmt::skip]
unsafe extern "C" {
    fn dokphalun_frames(
        sizes: *const u8, faces: usize,
        positions: *const f32, position_numbers: usize,
        normals: *const f32, normal_numbers: usize,
        texture: *const f32, texture_numbers: usize,
        threshold: f32,
        answer: *mut u32, answer_words: usize,
        work: *mut u32, work_words: usize,
    ) -> Outcome;
    fn dokphalun_reasons(
        sizes: *const u8, faces: usize,
        positions: *const f32, position_numbers: usize,
        normals: *const f32, normal_numbers: usize,
        texture: *const f32, texture_numbers: usize,
        threshold: f32,
        answer: *mut u32, answer_words: usize,
        work: *mut u32, work_words: usize,
        reasons: *mut u8, reason_bytes: usize,
    ) -> Outcome;
    fn dokphalun_judge(answer: *const u32, answer_words: usize, verdicts: *mut u8, verdict_bytes: usize) -> Judged;
    fn dokphalun_part(
        sizes: *const u8, faces: usize,
        positions: *const f32, position_numbers: usize,
        normals: *const f32, normal_numbers: usize,
        texture: *const f32, texture_numbers: usize,
        list: u32, face: usize,
    ) -> Span;
    fn dokphalun_labels(
        sizes: *const u8, faces: usize,
        positions: *const f32, position_numbers: usize,
        normals: *const f32, normal_numbers: usize,
        texture: *const f32, texture_numbers: usize,
        labels: *mut u32, label_words: usize,
        work: *mut u32, work_words: usize,
    ) -> Labelled;
    fn dokphalun_frames_by_islands(
        sizes: *const u8, faces: usize,
        positions: *const f32, position_numbers: usize,
        normals: *const f32, normal_numbers: usize,
        texture: *const f32, texture_numbers: usize,
        threshold: f32,
        answer: *mut u32, answer_words: usize,
        work: *mut u32, work_words: usize,
        labels: *mut u32, label_words: usize,
        order: *mut u32, order_words: usize,
        own_sizes: *mut u8, own_faces: usize,
        own_numbers: *mut f32, own_number_count: usize,
        own_frames: *mut u32, own_frame_words: usize,
    ) -> Outcome;
    fn dokphalun_examine(
        sizes: *const u8, faces: usize,
        positions: *const f32, position_numbers: usize,
        normals: *const f32, normal_numbers: usize,
        texture: *const f32, texture_numbers: usize,
        links: *const u32, link_words: usize,
        groups: *const u32, group_words: usize,
        orientations: *const u32, orientation_words: usize,
        work: *mut u32, work_words: usize,
    ) -> Examined;
    fn dokphalun_links(
        sizes: *const u8, faces: usize,
        positions: *const f32, position_numbers: usize,
        normals: *const f32, normal_numbers: usize,
        texture: *const f32, texture_numbers: usize,
        links: *mut u32, link_words: usize,
        groups: *mut u32, group_words: usize,
        orientations: *mut u32, orientation_words: usize,
        work: *mut u32, work_words: usize,
    ) -> Handed;
    fn dokphalun_card_write(answer: *const u32, answer_words: usize, card: *mut u8, card_bytes: usize) -> Written;
    fn dokphalun_card_read(card: *const u8, card_bytes: usize, total: u32, answer: *mut u32, answer_words: usize) -> Found;
    fn dokphalun_card_next(long: usize, total: u32) -> Next;
    fn dokphalun_card_append(long: usize, total: u32, records: *const u32, record_words: usize, blocks: *mut u8, block_bytes: usize) -> Appended;
    fn dokphalun_old_card_write(records: *const u32, record_words: usize, card: *mut u8, card_bytes: usize) -> Written;
    fn dokphalun_old_card_read(card: *const u8, card_bytes: usize, total: u32, records: *mut u32, record_words: usize) -> Found;
    fn dokphalun_old_card_next(long: usize, total: u32) -> Next;
    fn dokphalun_old_card_append(long: usize, total: u32, records: *const u32, record_words: usize, blocks: *mut u8, block_bytes: usize) -> Appended;
    fn dokphalun_pack(answer: *const u32, answer_words: usize, packed: *mut i16, packed_numbers: usize) -> Packed;
    fn dokphalun_unpack(packed: *const i16, packed_numbers: usize, answer: *mut u32, answer_words: usize) -> Unpacked;
}

/// A call with Rust's lists: of the words behind its name `&list` is handed in, `&mut list` lent, and any other a number. It is made up one
/// word at a time, from the words that are done.
macro_rules! with_lists {
    ($name:ident($($words:tt)*)) => { $crate::calls::with_lists!(@ $name [] $($words)*,) };
    (@ $name:ident [$($done:expr,)*] $(,)?) => {
        // SAFETY: each list is handed over with its own length, and those that are altered are borrowed for that alone; any numbers may stand in them.
        unsafe { $name($($done),*) }
    };
    (@ $name:ident [$($done:expr,)*] &mut $list:expr, $($rest:tt)*) => {
        $crate::calls::with_lists!(@ $name [$($done,)* $list.as_mut_ptr(), $list.len(),] $($rest)*)
    };
    (@ $name:ident [$($done:expr,)*] &$list:expr, $($rest:tt)*) => {
        $crate::calls::with_lists!(@ $name [$($done,)* $list.as_ptr(), $list.len(),] $($rest)*)
    };
    (@ $name:ident [$($done:expr,)*] $number:expr, $($rest:tt)*) => {
        $crate::calls::with_lists!(@ $name [$($done,)* $number,] $($rest)*)
    };
}
#[allow(
    unused_imports,
    reason = "without the feature `exports` it is used here alone"
)]
pub(crate) use with_lists;

/// The same of a call of the archive, which has to be the one that is declared here.
macro_rules! call {
    ($($words:tt)*) => {{
        crate::edition::held();
        with_lists!($($words)*)
    }};
}

/// A mesh as it is handed in: faces' sizes; three numbers a corner for positions and normals, and two for texture.
#[derive(Clone, Copy, Debug)]
pub struct Mesh<'a> {
    /// How many corners each face has.
    pub sizes: &'a [u8],
    /// Three numbers a corner.
    pub positions: &'a [f32],
    /// Three numbers a corner.
    pub normals: &'a [f32],
    /// Two numbers a corner.
    pub texture: &'a [f32],
}

/// The lists that [`frames_by_islands`] works in besides.
#[derive(Debug)]
pub struct IslandLists<'a> {
    /// The island of each face.
    pub labels: &'a mut [u32],
    /// The faces' order.
    pub order: &'a mut [u32],
    /// An island's sizes.
    pub sizes: &'a mut [u8],
    /// An island's numbers.
    pub numbers: &'a mut [f32],
    /// An island's slots.
    pub frames: &'a mut [u32],
}

/// The frames of a mesh.
pub fn frames(mesh: Mesh, threshold: f32, answer: &mut [u32], work: &mut [u32]) -> Outcome {
    call!(dokphalun_frames(
        &mesh.sizes,
        &mesh.positions,
        &mesh.normals,
        &mesh.texture,
        threshold,
        &mut answer,
        &mut work
    ))
}

/// The frames of a mesh, and why each slot is absent, a byte each: one of the numbers of [`crate::reason`].
pub fn reasons(
    mesh: Mesh,
    threshold: f32,
    answer: &mut [u32],
    work: &mut [u32],
    reasons: &mut [u8],
) -> Outcome {
    call!(dokphalun_reasons(
        &mesh.sizes,
        &mesh.positions,
        &mesh.normals,
        &mesh.texture,
        threshold,
        &mut answer,
        &mut work,
        &mut reasons
    ))
}

/// A verdict on each slot of answer words, a byte each: one of the numbers of [`crate::verdict`].
pub fn judge(answer: &[u32], verdicts: &mut [u8]) -> Judged {
    call!(dokphalun_judge(&answer, &mut verdicts))
}

/// Where the numbers of a face stand in a list: 0 for positions, 1 for normals, 2 for texture.
pub fn part(mesh: Mesh, list: u32, face: usize) -> Span {
    call!(dokphalun_part(
        &mesh.sizes,
        &mesh.positions,
        &mesh.normals,
        &mesh.texture,
        list,
        face
    ))
}

/// The island of each face.
pub fn labels(mesh: Mesh, labels: &mut [u32], work: &mut [u32]) -> Labelled {
    call!(dokphalun_labels(
        &mesh.sizes,
        &mesh.positions,
        &mesh.normals,
        &mesh.texture,
        &mut labels,
        &mut work
    ))
}

/// The frames of a mesh, one island after the other.
pub fn frames_by_islands(
    mesh: Mesh,
    threshold: f32,
    answer: &mut [u32],
    work: &mut [u32],
    own: IslandLists,
) -> Outcome {
    call!(dokphalun_frames_by_islands(
        &mesh.sizes,
        &mesh.positions,
        &mesh.normals,
        &mesh.texture,
        threshold,
        &mut answer,
        &mut work,
        &mut own.labels,
        &mut own.order,
        &mut own.sizes,
        &mut own.numbers,
        &mut own.frames
    ))
}

/// What is found of a partner's links, groups and orientations.
pub fn examine(
    mesh: Mesh,
    links: &[u32],
    groups: &[u32],
    orientations: &[u32],
    work: &mut [u32],
) -> Examined {
    call!(dokphalun_examine(
        &mesh.sizes,
        &mesh.positions,
        &mesh.normals,
        &mesh.texture,
        &links,
        &groups,
        &orientations,
        &mut work
    ))
}

/// Our own links, groups and orientations.
pub fn links(
    mesh: Mesh,
    links: &mut [u32],
    groups: &mut [u32],
    orientations: &mut [u32],
    work: &mut [u32],
) -> Handed {
    call!(dokphalun_links(
        &mesh.sizes,
        &mesh.positions,
        &mesh.normals,
        &mesh.texture,
        &mut links,
        &mut groups,
        &mut orientations,
        &mut work
    ))
}

/// Answer words to the bytes of a card.
pub fn card_write(answer: &[u32], card: &mut [u8]) -> Written {
    call!(dokphalun_card_write(&answer, &mut card))
}

/// The records of a card to answer words.
pub fn card_read(card: &[u8], total: u32, answer: &mut [u32]) -> Found {
    call!(dokphalun_card_read(&card, total, &mut answer))
}

/// What comes next on a card of so many bytes.
pub fn card_next(long: usize, total: u32) -> Next {
    call!(dokphalun_card_next(long, total))
}

/// The blocks of the next records of a card of so many bytes.
pub fn card_append(long: usize, total: u32, records: &[u32], blocks: &mut [u8]) -> Appended {
    call!(dokphalun_card_append(long, total, &records, &mut blocks))
}

/// Records of ten words to the bytes of an old card.
pub fn old_card_write(records: &[u32], card: &mut [u8]) -> Written {
    call!(dokphalun_old_card_write(&records, &mut card))
}

/// The records of an old card, ten words each.
pub fn old_card_read(card: &[u8], total: u32, records: &mut [u32]) -> Found {
    call!(dokphalun_old_card_read(&card, total, &mut records))
}

/// What comes next on an old card of so many bytes.
pub fn old_card_next(long: usize, total: u32) -> Next {
    call!(dokphalun_old_card_next(long, total))
}

/// The blocks of the next records, of ten words each, of an old card of so many bytes.
pub fn old_card_append(long: usize, total: u32, records: &[u32], blocks: &mut [u8]) -> Appended {
    call!(dokphalun_old_card_append(
        long,
        total,
        &records,
        &mut blocks
    ))
}

/// Answer words packed; the archive's 16-bit words are signed numbers in two's complement.
pub fn pack(answer: &[u32], packed: &mut [i16]) -> Packed {
    call!(dokphalun_pack(&answer, &mut packed))
}

/// Packed numbers read.
pub fn unpack(packed: &[i16], answer: &mut [u32]) -> Unpacked {
    call!(dokphalun_unpack(&packed, &mut answer))
}
