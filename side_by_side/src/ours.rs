//! The call of the proved archive.
use crate::mesh::Mesh;
use crate::stack;
use dokphalun_sys::frames;
use models::lent::answered;

pub use dokphalun_sys::Outcome;

/// What a call leaves: what it says, and both lent lists.
pub struct Left {
    pub outcome: Outcome,
    pub answer: Vec<u32>,
    pub work: Vec<u32>,
}

/// How many words stand on each side of a lent list, to show that nothing outside it is altered.
pub const GUARD: usize = 16;

/// From so many faces on ours is called in a thread of little stack.
const LARGE: usize = 4096;

/// The words of an answer list before a call: word i is A5A50000 + i.
pub fn fresh_answer(count: usize) -> Vec<u32> {
    (0xA5A5_0000..).take(count).collect()
}

/// The words of a work list before a call: word i is 5A5A0000 + i.
pub fn fresh_work(count: usize) -> Vec<u32> {
    (0x5A5A_0000..).take(count).collect()
}

/// All that a call could alter: what was handed in, and both lent lists with their guards.
pub struct Held<'a> {
    pub handed: &'a mut Mesh,
    pub answer: &'a mut [u32],
    pub work: &'a mut [u32],
}

/// A list between two guards.
struct Guarded {
    words: Vec<u32>,
}

impl Guarded {
    fn new(list: Vec<u32>) -> Guarded {
        let guard = || (0x6996_0000..).take(GUARD);
        Guarded {
            words: guard().chain(list).chain(guard()).collect(),
        }
    }

    /// The list.
    fn list(&mut self) -> &mut [u32] {
        let end = self.words.len() - GUARD;
        &mut self.words[GUARD..end]
    }

    /// The list, and whether both guards are as they were.
    fn taken(self) -> (Vec<u32>, bool) {
        let end = self.words.len() - GUARD;
        let stands = |guard: &[u32]| guard.iter().copied().eq((0x6996_0000..).take(GUARD));
        let unharmed = stands(&self.words[..GUARD]) && stands(&self.words[end..]);
        (self.words[GUARD..end].to_vec(), unharmed)
    }
}

/// The call itself, on lists that are lent.
pub fn call(mesh: &Mesh, answer: &mut [u32], work: &mut [u32]) -> Outcome {
    frames(mesh.handed(), f32::from_bits(mesh.threshold), answer, work)
}

/// What the call leaves of fresh lists; an error says that it altered something that was not lent.
pub fn left(mesh: &Mesh) -> Result<Left, String> {
    left_with(mesh, |_| {})
}

/// The same, where something is altered between the call and the look at what it left.
pub fn left_with(mesh: &Mesh, alter: impl FnOnce(&mut Held)) -> Result<Left, String> {
    left_by(mesh, call, alter)
}

/// The same of another call that takes a mesh and lends both lists.
pub fn left_by(
    mesh: &Mesh,
    call: impl FnOnce(&Mesh, &mut [u32], &mut [u32]) -> Outcome + Send,
    alter: impl FnOnce(&mut Held),
) -> Result<Left, String> {
    let mut handed = mesh.clone();
    let mut answer = Guarded::new(fresh_answer(mesh.answer));
    let mut work = Guarded::new(fresh_work(mesh.work));
    let run = || call(&handed, answer.list(), work.list());
    let outcome = answered(match mesh.sizes.len() < LARGE {
        true => run(),
        false => stack::within(stack::OURS, run),
    });
    alter(&mut Held {
        handed: &mut handed,
        answer: &mut answer.words,
        work: &mut work.words,
    });
    let ((answer, answer_stands), (work, work_stands)) = (answer.taken(), work.taken());
    if handed != *mesh {
        return Err("ours altered what was handed in".into());
    }
    if !answer_stands || !work_stands {
        return Err("ours altered words beside a lent list".into());
    }
    Ok(Left {
        outcome,
        answer,
        work,
    })
}
