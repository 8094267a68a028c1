//! One case: ours beside what it has to be, every word.
use crate::mesh::{Case, Corner, Mesh, SLOT_WORDS, framed};
use crate::ops::Document;
use crate::ours::{self, Left};
use crate::refusals::refusal;
use crate::spoil::Spoil;
use crate::text::slot_row;
use crate::theirs;
use models::lent::asked;
use std::collections::HashSet;

/// What was seen of a case.
pub struct Seen {
    /// The number that document 01's table gives.
    pub number: u32,
    /// The first 12S words that the call has to leave.
    pub frames: Vec<u32>,
    /// True where the frames to compare with were the altered copy's (request E6).
    pub amended: bool,
    /// True for a shuffle whose faces were compared with the same faces alone.
    pub shuffled: bool,
    /// The first word that differed, if one did.
    pub difference: Option<String>,
}

/// Compares a case.
pub fn examine(case: &Case, spoil: Option<Spoil>) -> Seen {
    let mut seen = Seen {
        number: 0,
        frames: vec![],
        amended: false,
        shuffled: false,
        difference: None,
    };
    seen.difference = differing(case, spoil, &mut seen).err();
    seen
}

/// Compares a case: an error is the first difference.
fn differing(case: &Case, spoil: Option<Spoil>, seen: &mut Seen) -> Result<(), String> {
    let expected = theirs::left::<Document>(&case.mesh)?;
    let theirs = expected.left;
    seen.amended = expected.amended;
    seen.number = theirs.outcome.number;
    seen.frames = theirs.answer[..SLOT_WORDS * theirs.outcome.slots as usize].to_vec();
    if let Some(foreseen) = case
        .foreseen
        .filter(|&told| told != (theirs.outcome.number, theirs.outcome.place))
    {
        return Err(format!(
            "made for number and place {foreseen:?}, but the table says {:?}",
            theirs.outcome
        ));
    }
    let ours = asked(1, || spoiled(&case.mesh, spoil))??;
    same(&case.mesh, &ours, &theirs)?;
    let parts = [0, 1].map(|owner| part(case, owner));
    seen.shuffled = is_shuffle(case, &parts);
    if seen.shuffled {
        as_alone(case, ours.answer, &parts, spoil)
    } else {
        Ok(())
    }
}

/// What ours leaves, one word of it altered where that is asked for.
fn spoiled(mesh: &Mesh, spoil: Option<Spoil>) -> Result<Left, String> {
    let Some(spoil) = spoil else {
        return ours::left(mesh);
    };
    let mut left = ours::left_with(mesh, |held| spoil.beside(held))?;
    spoil.call(mesh, &mut left);
    Ok(left)
}

/// Compares what ours left with what it has to leave: outcome, and every word of both lists.
fn same(mesh: &Mesh, ours: &Left, theirs: &Left) -> Result<(), String> {
    if ours.outcome != theirs.outcome {
        return Err(format!(
            "ours says {:?}, expected {:?}",
            ours.outcome, theirs.outcome
        ));
    }
    if let Some(at) = first_difference(&ours.answer, &theirs.answer) {
        return Err(answer_difference(mesh, at, ours, theirs));
    }
    if let Some(at) = first_difference(&ours.work, &theirs.work) {
        let part = match at {
            _ if theirs.outcome.number != 0 => "after a refusal",
            at if at < mesh.needed_work() => "of the first 128F",
            _ => "past 128F",
        };
        let (ours, theirs) = (word(&ours.work, at), word(&theirs.work, at));
        return Err(format!(
            "work word {at}, {part}: ours {ours}, expected {theirs}"
        ));
    }
    Ok(())
}

/// Where two lists first differ; where one is the beginning of the other, past its end.
fn first_difference(a: &[u32], b: &[u32]) -> Option<usize> {
    if a == b {
        None
    } else {
        (0..a.len().max(b.len())).find(|&i| a.get(i) != b.get(i))
    }
}

/// A word of a list as it is shown; the list may end before it.
fn word(list: &[u32], at: usize) -> String {
    let word = list.get(at);
    word.map_or("none".into(), |word| format!("{word:08X}"))
}

/// Says which answer word differs, with both slots where it is of one.
fn answer_difference(mesh: &Mesh, at: usize, ours: &Left, theirs: &Left) -> String {
    let shown = [ours, theirs].map(|left| word(&left.answer, at));
    let words = format!("ours {}, expected {}", shown[0], shown[1]);
    if theirs.outcome.number != 0 {
        return format!("answer word {at} after a refusal: {words}");
    }
    if at >= mesh.needed_answer() {
        return format!("answer word {at}, past 12S: {words}");
    }
    let slot = at / SLOT_WORDS;
    let slots = [ours, theirs].map(|left| {
        let words = left.answer.chunks_exact(SLOT_WORDS).nth(slot);
        words.map_or("none".into(), slot_row)
    });
    let [ours, theirs] = slots;
    format!(
        "{}: {words}\n  ours     {ours}\n  expected {theirs}",
        place(mesh, slot, at % SLOT_WORDS)
    )
}

/// The name of a word of a slot.
fn place(mesh: &Mesh, slot: usize, word: usize) -> String {
    const NAMES: [&str; SLOT_WORDS] = [
        "present",
        "tangent x",
        "tangent y",
        "tangent z",
        "bi-tangent x",
        "bi-tangent y",
        "bi-tangent z",
        "mag_s",
        "mag_t",
        "orientation",
        "origin",
        "behind",
    ];
    let (mut face, mut corner) = (0, slot);
    while !framed(mesh.sizes[face]) || corner >= usize::from(mesh.sizes[face]) {
        corner -= if framed(mesh.sizes[face]) {
            usize::from(mesh.sizes[face])
        } else {
            0
        };
        face += 1;
    }
    format!(
        "slot {slot} (face {face}, corner {corner}), word {word} ({})",
        NAMES[word]
    )
}

/// The faces of one owner, as a mesh of its own with lists that are just long enough.
fn part(case: &Case, owner: u8) -> Mesh {
    if case.owners.is_empty() || refusal(&case.mesh).is_some() {
        return Mesh::default();
    }
    let faces = case.mesh.faces().into_iter().zip(&case.owners);
    let faces: Vec<Vec<Corner>> = faces
        .filter(|(_, of)| **of == owner)
        .map(|(face, _)| face)
        .collect();
    Mesh::of(&faces, case.mesh.threshold)
}

/// True for a case made of two meshes with faces, all accepted, that share no welded corner.
fn is_shuffle(case: &Case, parts: &[Mesh; 2]) -> bool {
    let accepted = |mesh: &Mesh| !mesh.sizes.is_empty() && refusal(mesh).is_none();
    !case.owners.is_empty() && parts.iter().all(accepted) && shared(&parts[0], &parts[1]).is_empty()
}

/// The corners that stand, bit for bit, in faces of 3 or 4 of two meshes.
pub fn shared(a: &Mesh, b: &Mesh) -> Vec<Corner> {
    let corners = |mesh: &Mesh| -> HashSet<Corner> {
        mesh.faces()
            .into_iter()
            .filter(|face| framed(face.len() as u8))
            .flatten()
            .collect()
    };
    corners(a).intersection(&corners(b)).copied().collect()
}

/// Demand 3: each face of a shuffle has, word for word, the frames that it has alone, by ours and by the crate.
fn as_alone(
    case: &Case,
    mut together: Vec<u32>,
    parts: &[Mesh; 2],
    spoil: Option<Spoil>,
) -> Result<(), String> {
    let mut alone = vec![];
    for mesh in parts {
        let ours = spoiled(mesh, spoil)?;
        same(mesh, &ours, &theirs::left::<Document>(mesh)?.left)
            .map_err(|what| format!("one of the two alone: {what}"))?;
        alone.push(ours.answer);
    }
    together.truncate(case.mesh.needed_answer());
    if let Some(spoil) = spoil {
        spoil.shuffle(&mut together);
    }
    let expected = interleaved(case, alone);
    match first_difference(&together, &expected) {
        None => Ok(()),
        Some(at) => Err(format!(
            "{}: {} in the shuffle, {} alone",
            place(&case.mesh, at / SLOT_WORDS, at % SLOT_WORDS),
            word(&together, at),
            word(&expected, at)
        )),
    }
}

/// The frames of two meshes in the order of the shuffle.
fn interleaved(case: &Case, alone: Vec<Vec<u32>>) -> Vec<u32> {
    let mut taken = [0, 0];
    let mut words = vec![];
    for (&size, &owner) in case.mesh.sizes.iter().zip(&case.owners) {
        let owner = usize::from(owner);
        let count = if framed(size) {
            SLOT_WORDS * usize::from(size)
        } else {
            0
        };
        words.extend(&alone[owner][taken[owner]..taken[owner] + count]);
        taken[owner] += count;
    }
    words
}

#[cfg(test)]
mod tests {
    use super::first_difference;

    #[test]
    fn a_list_that_ends_early_differs() {
        assert_eq!(first_difference(&[1, 2, 3], &[1, 2, 3]), None);
        assert_eq!(first_difference(&[1, 2], &[1, 2, 3]), Some(2));
        assert_eq!(first_difference(&[1, 2, 3], &[1, 2]), Some(2));
        assert_eq!(first_difference(&[1, 9, 3], &[1, 2]), Some(1));
    }
}
