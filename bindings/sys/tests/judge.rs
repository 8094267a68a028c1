//! The judge's verdicts and refusals, and those of the call for reasons, at their edges.
use dokphalun_sys::{Judged, Mesh, judge, reason, reasons, verdict};

/// A slot with these directions, and word 0 and an orientation.
fn slot(there: u32, directions: [u32; 6], orientation: u32) -> Vec<u32> {
    let magnitudes = [0x3f80_0000; 2];
    let words = [&[there], &directions[..], &magnitudes, &[orientation, 1, 1]];
    words.concat()
}

#[test]
fn the_judge_s_verdicts_and_refusals_are_those_that_are_declared() {
    let one = 0x3f80_0000;
    let slots = [
        slot(0, [0; 6], 0),
        slot(1, [one, 0, 0, 0, one, 0], 1),
        slot(2, [one, 0, 0, 0, one, 0], 1),
        slot(1, [one, 0, 0, 0, 0x0080_0000, 0], 1),
        slot(1, [one, 0, 0, 0, 0x7fc0_0000, one], 1),
        slot(1, [one, 0, 0, 0, one, 0], 2),
        slot(1, [0x3f80_0009, 0, 0, 0, one, 0], 1),
        slot(1, [0x3f80_0008, 0, 0, 0, 0xbf80_0008, 0], 0),
        slot(1, [one, 0, 0, 0, 0x3780_0100, 0], 1),
        slot(1, [one, 0, 0, 0, 0xb780_0101, 0], 1),
    ];
    use verdict::*;
    let wanted = [
        ABSENT, GOOD, LOST, BLANK, BLANK, BLANK, LONG, GOOD, SHORT, GOOD,
    ];
    let (words, mut lent) = (slots.concat(), [9; 11]);
    let judged = |number, good, first| Judged {
        number,
        good,
        first,
    };
    assert_eq!(judge(&words, &mut lent), judged(0, 3, 0));
    assert_eq!((&lent[..10], lent[10]), (&wanted[..], 9));
    assert_eq!(judge(&words[12..36], &mut lent), judged(0, 1, 1));
    assert_eq!(judge(&words[12..24], &mut lent), judged(0, 1, 1));
    // a refusal alters nothing
    let mut lent = [9; 9];
    assert_eq!(judge(&words[1..], &mut lent), judged(1, 0, 0));
    assert_eq!(judge(&words, &mut lent), judged(2, 0, 0));
    assert_eq!(lent, [9; 9]);
}

#[test]
fn reasons_are_refused_with_9_where_there_is_less_than_one_a_slot() {
    let mesh = Mesh {
        sizes: &[3],
        positions: &[0.0, 0.0, 0.0, 1.0, 0.0, 0.0, 0.0, 1.0, 0.0],
        normals: &[0.0, 0.0, 1.0, 0.0, 0.0, 1.0, 0.0, 0.0, 1.0],
        texture: &[0.5; 6],
    };
    let (mut answer, mut work, mut lent) = ([7; 37], [7; 128], [9; 4]);
    let said = reasons(mesh, -1.0, &mut answer, &mut work, &mut lent[..2]);
    assert_eq!((said.number, said.place, said.slots), (9, 0, 0));
    // the other refusals come first
    let said = reasons(mesh, f32::NAN, &mut answer, &mut work, &mut []);
    assert_eq!(said.number, 3);
    let said = reasons(mesh, -1.0, &mut answer[..35], &mut work, &mut []);
    assert_eq!(said.number, 5);
    assert_eq!((answer, work, lent), ([7; 37], [7; 128], [9; 4]));
    let said = reasons(mesh, -1.0, &mut answer, &mut work, &mut lent);
    assert_eq!((said.number, said.place, said.slots), (0, 0, 3));
    assert_eq!((answer[..36].iter().max(), answer[36]), (Some(&0), 7));
    assert_eq!(lent, [reason::UNREACHED, 3, 3, 9]);
}
