//! What comes back for a corner is what the archive's judge says: of answers, and of cards of both kinds.
use dokphalun::{
    Answer, BLOCK_BYTES, Buffers, Flawed, Kind, Mesh, Origin, Reading, Record, write_card,
    write_card_as,
};
use models::{Corner, Faces};
use std::num::NonZeroUsize;

/// The bits of 1.
const ONE: u32 = 0x3f80_0000;

/// A triangle whose texture runs from 0 to 1, with these positions and one normal.
fn triangle(positions: [[f32; 3]; 3], normal: [f32; 3]) -> Faces {
    let texture = [[0.0, 0.0], [1.0, 0.0], [0.0, 1.0]];
    let corners = [0, 1, 2].map(|i| -> Corner { (positions[i], normal, texture[i]) });
    Faces::of([corners])
}

/// The readings of a mesh, and how many slots are good.
fn readings(faces: &Faces) -> (Vec<Reading>, u32) {
    let mut buffers = Buffers::new();
    let answer = buffers.frames(faces.mesh(), -1.0).expect("it is refused");
    let readings = answer.readings().map(|(_, reading)| reading);
    (readings.collect(), answer.good())
}

/// What is handed out of a frame that is blank.
fn blank(reading: Reading) -> Flawed {
    match reading {
        Reading::Blank(flawed) => flawed,
        other => panic!("{other:?}"),
    }
}

#[test]
fn a_frame_of_zeros_is_never_present() {
    // three corners on a line of which the angles at the ends come out as zero: two have a frame of zeros
    let line = triangle(
        [[0.0; 3], [1.0, 0.0, 0.0], [2.0, 0.0, 0.0]],
        [0.0, 0.0, 1.0],
    );
    let (all, good) = readings(&line);
    assert_eq!((all.len(), good), (3, 1));
    for slot in [0, 2] {
        let flawed = blank(all[slot]);
        assert_eq!(flawed.bits(), [0, 0, 0, 0, 0, 0, 0, 0, 1]);
        assert_eq!(
            (flawed.origin(), flawed.behind()),
            (Origin::Single, Some(1))
        );
    }
    // the middle one has both directions, though they are one
    assert!(matches!(all[1], Reading::Present(frame) if frame.tangent == frame.bitangent));
}

#[test]
fn a_normal_along_the_tangent_leaves_none() {
    let sample = [[0.0; 3], [1.0, 0.0, 0.0], [0.0, 1.0, 0.0]];
    let (all, good) = readings(&triangle(sample, [1.0, 0.0, 0.0]));
    assert_eq!((all.len(), good), (3, 0));
    for reading in all {
        assert_eq!(blank(reading).bits()[..3], [0; 3]);
    }
    let (all, good) = readings(&triangle(sample, [0.0, 0.0, 1.0]));
    assert!(all.iter().all(|one| matches!(one, Reading::Present(_))));
    assert_eq!(good, 3);
}

/// A record with this tangent x and orientation, and a bi-tangent of length 1.
fn record(x: u32, orientation: u32) -> [u32; 12] {
    [1, x, 0, 0, 0, ONE, 0, ONE, ONE, orientation, 2, 5]
}

/// Records of every verdict but lost, each with its letter: present, absent, blank, long and short, at their edges.
const JUDGED: [(u32, u32, char); 14] = [
    (ONE, 1, 'p'),
    (ONE, 0, 'p'),
    (ONE, 2, 'b'),
    (ONE, u32::MAX, 'b'),
    (0, 1, 'b'),
    (0x8000_0000, 1, 'b'),
    (0x0080_0000, 1, 'b'),
    (0x0080_0001, 1, 's'),
    (0x3780_0100, 1, 's'),
    (0xb780_0101, 1, 'p'),
    (0xbf80_0008, 1, 'p'),
    (0x3f80_0009, 1, 'l'),
    (0x7f80_0000, 1, 'b'),
    (0x7fc0_0000, 1, 'b'),
];

/// The letter of a record, and what is handed out of one that is of no use.
fn letter(record: Record) -> (char, Option<Flawed>) {
    match record {
        Record::Lost => ('L', None),
        Record::Absent => ('a', None),
        Record::Present(_) => ('p', None),
        Record::Blank(flawed) => ('b', Some(flawed)),
        Record::Long(flawed) => ('l', Some(flawed)),
        Record::Short(flawed) => ('s', Some(flawed)),
    }
}

#[test]
fn a_card_of_either_kind_is_judged_record_by_record() {
    let mut buffers = Buffers::new();
    for kind in [Kind::Old, Kind::New] {
        let width = kind.record_words();
        let records = JUDGED.map(|(x, orientation, _)| record(x, orientation)[..width].to_vec());
        let words = [records.concat(), vec![0; width]].concat();
        let mut card = Vec::new();
        write_card_as(kind, &words, &mut card).unwrap();
        let total = JUDGED.len() as u32 + 1;
        let read = buffers.read_card(&card, total).unwrap();
        assert_eq!((read.kind, read.good(), read.found()), (kind, 4, 15));
        let all: Vec<_> = read.records().map(letter).collect();
        assert_eq!(all.last(), Some(&('a', None)));
        for ((x, orientation, wanted), (letter, flawed)) in JUDGED.into_iter().zip(all) {
            assert_eq!(letter, wanted, "{kind:?} {x:x} {orientation}");
            let Some(flawed) = flawed else { continue };
            assert_eq!(flawed.bits()[..], record(x, orientation)[1..10]);
            let told = match kind {
                Kind::Old => (Origin::NotRecorded, None),
                Kind::New => (Origin::Combined, Some(5)),
            };
            assert_eq!((flawed.origin(), flawed.behind()), told);
        }
        // none is good on a card that is lost
        card[8] ^= 1;
        card[BLOCK_BYTES + 8] ^= 1;
        let lost = buffers.read_card_as(kind, &card, total).unwrap();
        assert_eq!((lost.good(), lost.found()), (0, 0));
    }
}

#[test]
fn an_old_card_is_judged_to_its_end() {
    // more records than are judged at once; each seventh is blank
    let (total, mut card) = (5000, Vec::new());
    let x = |number: u32| if number % 7 == 3 { 0 } else { ONE };
    let words: Vec<u32> = (0..total)
        .flat_map(|number| record(x(number), 1)[..10].to_vec())
        .collect();
    write_card_as(Kind::Old, &words, &mut card).unwrap();
    let mut buffers = Buffers::new();
    let read = buffers.read_card(&card, total).unwrap();
    assert_eq!((read.kind, read.records().len()), (Kind::Old, 5000));
    for (number, record) in (0..).zip(read.records()) {
        let wanted = if x(number) == 0 { 'b' } else { 'p' };
        assert_eq!(letter(record).0, wanted, "record {number}");
    }
    let good = (0..total).filter(|&number| x(number) == ONE).count();
    assert_eq!(read.good(), good);
}

#[test]
fn all_good_asks_for_a_slot_and_for_a_whole_card() {
    let mut buffers = Buffers::new();
    let all_good = |buffers: &mut Buffers, faces: &Faces| {
        let answer = buffers.frames(faces.mesh(), -1.0).unwrap();
        answer.all_good()
    };
    let sample = [[0.0; 3], [1.0, 0.0, 0.0], [0.0, 1.0, 0.0]];
    let faces = triangle(sample, [0.0, 0.0, 1.0]);
    assert!(all_good(&mut buffers, &faces));
    assert!(!all_good(&mut buffers, &Faces::default()));
    assert!(!all_good(&mut buffers, &islands(1))); // one of its three is good

    let (mut card, mut old) = (Vec::new(), Vec::new());
    write_card(&record(ONE, 1), &mut card).unwrap();
    let whole = buffers.read_card(&card, 1).unwrap();
    for (torn, of_other_kind) in [(0, 0), (1, 0), (0, 1)] {
        let mut changed = whole;
        (changed.torn, changed.of_other_kind) = (torn, of_other_kind);
        assert_eq!(changed.all_good(), torn + of_other_kind == 0);
    }
    let mut card_good = |card: &[u8], total| buffers.read_card(card, total).unwrap().all_good();
    write_card(&[record(ONE, 1); 11].concat(), &mut card).unwrap();
    assert!(card_good(&card, 11));
    assert!(!card_good(&[], 0));
    assert!(!card_good(&[card.clone(), vec![0]].concat(), 11)); // a torn byte
    assert!(!card_good(&card[..BLOCK_BYTES], 11)); // a block is missing
    // a card of the old kind, and one that was carried on with the new
    let ten = record(ONE, 1)[..10].repeat(13);
    write_card_as(Kind::Old, &ten, &mut old).unwrap();
    assert!(card_good(&old, 13));
    let mixed = [&old[..BLOCK_BYTES], &card[BLOCK_BYTES..]].concat();
    assert!(!card_good(&mixed, 13));
    write_card(&[record(ONE, 1), record(0, 1)].concat(), &mut card).unwrap();
    assert!(!card_good(&card, 2));
}

#[test]
fn nothing_is_left_of_the_call_before() {
    // a long card, and then an answer of three slots
    let (mut buffers, mut card) = (Buffers::new(), Vec::new());
    let words = [record(ONE, 1); 40].concat();
    write_card(&words, &mut card).unwrap();
    assert_eq!(buffers.read_card(&card, 40).unwrap().good(), 40);
    let sample = [[0.0; 3], [1.0, 0.0, 0.0], [0.0, 1.0, 0.0]];
    let faces = triangle(sample, [1.0, 0.0, 0.0]);
    let answer = buffers.frames(faces.mesh(), -1.0).unwrap();
    assert_eq!((answer.total(), answer.good()), (3, 0));
    assert_eq!(answer.readings().count(), 3);
}

/// So many islands: by turns a triangle on a line, one with its normal along the tangent, a sound one, and one without texture.
fn islands(count: usize) -> Faces {
    let mut faces = Faces::default();
    for i in 0..count {
        let x = 10.0 * i as f32;
        let (last, normal, s) = match i % 4 {
            0 => ([x + 2.0, 0.0, 0.0], [0.0, 0.0, 1.0], 1.0),
            1 => ([x, 1.0, 0.0], [1.0, 0.0, 0.0], 1.0),
            2 => ([x, 1.0, 0.0], [0.0, 0.0, 1.0], 1.0),
            _ => ([x, 1.0, 0.0], [0.0, 0.0, 1.0], 0.0),
        };
        let positions = [[x, 0.0, 0.0], [x + 1.0, 0.0, 0.0], last];
        let texture = [[0.0, 0.0], [s, 0.0], [0.0, 1.0]];
        faces.push(&[0, 1, 2].map(|i| -> Corner { (positions[i], normal, texture[i]) }));
    }
    faces
}

/// The letters of an answer's readings, and how many are good and how many absent.
fn letters(answer: Answer) -> (String, u32, usize) {
    let readings = answer
        .readings()
        .map(|(_, reading)| letter(reading.into()).0);
    let absent = answer.absent().count();
    (readings.collect(), answer.good(), absent)
}

#[test]
fn every_way_to_make_frames_judges_them() {
    let (faces, three) = (islands(40), NonZeroUsize::new(3).unwrap());
    let mesh = faces.mesh();
    let wanted = ("bpbbbbpppaaa".repeat(10), 40, 30);
    // each call by itself, so that no other has judged before
    let frames = |made: fn(&mut Buffers, Mesh, NonZeroUsize) -> (String, u32, usize)| {
        assert_eq!(made(&mut Buffers::new(), mesh, three), wanted);
    };
    frames(|buffers, mesh, _| letters(buffers.frames(mesh, -1.0).unwrap()));
    frames(|buffers, mesh, _| letters(buffers.frames_by_islands(mesh, -1.0).unwrap()));
    frames(|buffers, mesh, _| letters(buffers.reasons(mesh, -1.0).unwrap().answer));
    frames(|buffers, mesh, three| {
        let answer = buffers.frames_on(mesh, -1.0, three).unwrap();
        assert_eq!(answer.parts(), 3);
        letters(answer)
    });
}
