//! Why slots are absent: a mesh for each of the three reasons, and both calls make the same frames.
use dokphalun::{Buffers, Place, Reading, Reason, Refusal};
use models::{Corner, Faces, flat};

/// A corner in a plane whose texture coordinates are all the same.
fn bare(place: [f32; 2]) -> Corner {
    let (position, normal, _) = flat(place);
    (position, normal, [0.5; 2])
}

/// The reasons of a mesh; the frames that come with them are the same words as from the call for frames, and a slot has a reason exactly
/// where it is absent.
fn reasons(faces: &Faces) -> Vec<Option<Reason>> {
    let mut buffers = Buffers::new();
    let words = buffers.frames(faces.mesh(), -1.0).unwrap().words().to_vec();
    let made = buffers.reasons(faces.mesh(), -1.0).unwrap();
    assert_eq!(made.answer.words(), words);
    for ((place, reading), (at, reason)) in made.answer.readings().zip(made.reasons()) {
        assert_eq!(place, at);
        assert_eq!(reading == Reading::Absent, reason.is_some(), "{place}");
    }
    made.reasons().map(|(_, reason)| reason).collect()
}

/// Three corners of a sound triangle.
const SOUND: [[f32; 2]; 3] = [[0.0, 0.0], [1.0, 0.0], [0.0, 1.0]];

#[test]
fn what_is_there_has_no_reason() {
    assert_eq!(reasons(&Faces::of([SOUND.map(flat)])), [None; 3]);
}

#[test]
fn a_degenerate_triangle_that_nothing_is_welded_to() {
    let [a, b, _] = SOUND.map(flat);
    assert_eq!(
        reasons(&Faces::of([[a, a, b]])),
        [Some(Reason::Unwelded); 3]
    );
    // beside a sound one that has two of its corners; the third has another texture
    let other = (a.0, a.1, [0.25, 0.25]);
    let both = Faces::of([SOUND.map(flat), [a, other, b]]);
    let wanted = [None, Some(Reason::Unwelded), None];
    assert_eq!(reasons(&both)[3..], wanted);
}

#[test]
fn a_triangle_that_no_group_reached() {
    let wanted = [Some(Reason::Unreached); 3];
    assert_eq!(reasons(&Faces::of([SOUND.map(bare)])), wanted);
}

#[test]
fn a_copy_of_a_corner_that_is_absent_itself() {
    let [a, b, c] = SOUND.map(bare);
    // a degenerate triangle whose corners are two of an absent one's
    let copied = Faces::of([[a, b, c], [a, b, b]]);
    let [unreached, copies] = [Reason::Unreached, Reason::CopiesAbsent].map(Some);
    assert_eq!(reasons(&copied)[..3], [unreached; 3]);
    assert_eq!(reasons(&copied)[3..], [copies; 3]);
    // and a quad of which one triangle is degenerate: one corner is filled in, with nothing
    let filled = Faces::of([[a, b, c, c]]);
    let found = reasons(&filled);
    let count = |reason| found.iter().filter(|one| **one == reason).count();
    assert_eq!((count(unreached), count(copies)), (3, 1));
}

#[test]
fn places_pass_over_faces_without_slots() {
    let mut faces = Faces::of([SOUND.map(flat)]);
    faces.push(&[flat([7.0, 7.0]); 5]);
    faces.push(&SOUND.map(|[x, y]| bare([x + 3.0, y])));
    let mut buffers = Buffers::new();
    let made = buffers.reasons(faces.mesh(), -1.0).unwrap();
    let absent: Vec<_> = made
        .reasons()
        .filter(|(_, reason)| reason.is_some())
        .collect();
    let place = |corner| Place { face: 2, corner };
    let wanted = [0, 1, 2].map(|corner| (place(corner), Some(Reason::Unreached)));
    assert_eq!(absent, wanted);
}

#[test]
fn the_refusals_are_those_of_the_call_for_frames() {
    let (faces, mut buffers) = (Faces::of([SOUND.map(flat)]), Buffers::new());
    let refused = buffers.reasons(faces.mesh(), f32::NAN).unwrap_err();
    assert_eq!(refused, Refusal::Threshold);
    let mut bad = faces.clone();
    bad.texture[2][1] = f32::NAN;
    let refused = buffers.reasons(bad.mesh(), -1.0).unwrap_err();
    assert_eq!(refused, Refusal::NotFinite(Place { face: 0, corner: 2 }));
    // after a larger mesh a smaller one has no more reasons than slots
    let many = Faces::of([SOUND.map(bare); 9]);
    assert_eq!(
        buffers
            .reasons(many.mesh(), -1.0)
            .unwrap()
            .reasons()
            .count(),
        27
    );
    assert_eq!(
        buffers
            .reasons(faces.mesh(), -1.0)
            .unwrap()
            .reasons()
            .count(),
        3
    );
}

#[test]
fn each_reason_has_words_that_a_report_can_hold() {
    let all = [Reason::Unwelded, Reason::CopiesAbsent, Reason::Unreached].map(Reason::words);
    for words in all {
        assert!(!words.contains([',', '"', '\n']), "{words}");
        assert_eq!(all.iter().filter(|other| **other == words).count(), 1);
    }
}
