//! The call for frames and reasons beside what it has to leave: the call for frames, and a plain model of why a slot is absent.
use crate::examiner::numbers;
use crate::mesh::Mesh;
use crate::ours::{self, GUARD, Outcome, fresh_answer, fresh_work};
use crate::plain_reasons::Plain;
use crate::plain_steps::model;
use dokphalun_sys as archive;
use models::lent::asked;

/// All that the call leaves; the reasons stand between two guards.
#[derive(Clone, Debug, PartialEq)]
pub struct Left {
    pub outcome: Outcome,
    pub answer: Vec<u32>,
    pub work: Vec<u32>,
    pub reasons: Vec<u8>,
}

/// So many bytes between two guards, none of which is a reason.
fn fresh_reasons(count: usize) -> Vec<u8> {
    let bytes = (0..count + 2 * GUARD).map(|i| 0x90 + (i % 64) as u8);
    bytes.collect()
}

/// What the call leaves of fresh lists; so many bytes are lent for the reasons.
pub fn left(mesh: &Mesh, lent: usize) -> Result<Left, String> {
    let mut reasons = fresh_reasons(lent);
    let bytes = &mut reasons[GUARD..GUARD + lent];
    let threshold = f32::from_bits(mesh.threshold);
    let call = |mesh: &Mesh, answer: &mut [u32], work: &mut [u32]| {
        archive::reasons(mesh.handed(), threshold, answer, work, bytes)
    };
    let ours::Left {
        outcome,
        answer,
        work,
    } = ours::left_by(mesh, call, |_| {})?;
    Ok(Left {
        outcome,
        answer,
        work,
        reasons,
    })
}

/// What it has to leave: what the call for frames does, and a byte for each slot; 9 where there are fewer, and nothing is altered.
pub fn expected(mesh: &Mesh, lent: usize, plain: &Plain) -> Result<Left, String> {
    let frames = ours::left(mesh)?;
    let mut left = Left {
        outcome: frames.outcome,
        answer: frames.answer,
        work: frames.work,
        reasons: fresh_reasons(lent),
    };
    let slots = mesh.slots();
    match (left.outcome.number, slots <= lent) {
        (0, true) => {
            let model = model(&mesh.sizes, &numbers(mesh));
            left.reasons[GUARD..GUARD + slots].copy_from_slice(&plain.reasons(&model, slots));
        }
        (0, false) => {
            left.outcome = Outcome {
                number: 9,
                place: 0,
                slots: 0,
            };
            left.answer = fresh_answer(mesh.answer);
            left.work = fresh_work(mesh.work);
        }
        _ => {}
    }
    Ok(left)
}

/// Compares a mesh, and gives what had to be left; a word of ours may be spoiled first. An error says what differs.
pub fn compared(
    mesh: &Mesh,
    lent: usize,
    plain: &Plain,
    spoil: Option<fn(&mut Left)>,
) -> Result<Left, String> {
    let expected = expected(mesh, lent, plain)?;
    let mut ours = asked(1, || left(mesh, lent))??;
    if let Some(spoil) = spoil {
        spoil(&mut ours);
    }
    match ours == expected {
        true => Ok(expected),
        false => Err(format!("{ours:X?}, expected {expected:X?}, of {mesh:X?}")),
    }
}
