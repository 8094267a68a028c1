//! Where frames come from, of the mesh of old/steel.ply; and its card from before request E7, whose records have no such words.
use dokphalun::{Buffers, Kind, Origin, Reading, Record};
use models::{Corner, Faces};

/// The vertices of old/steel.ply: position, normal and texture.
const VERTICES: [[f32; 8]; 9] = [
    [0.0, 0.0, 0.0, 0.0, 0.0, 1.0, 0.0, 0.0],
    [1.0, 0.0, 0.0, 0.0, 0.0, 1.0, 1.0, 0.0],
    [1.0, 1.0, 0.0, 0.0, 0.0, 1.0, 1.0, 1.0],
    [0.0, 1.0, 0.25, -0.25, 0.0, 1.0, 0.0, 1.0],
    [2.0, 0.0, 0.5, 0.25, 0.0, 1.0, 2.0, 0.0],
    [5.0, 0.0, 0.0, 0.0, 0.0, 1.0, 0.5, 0.5],
    [6.0, 0.0, 0.0, 0.0, 0.0, 1.0, 0.5, 0.5],
    [5.0, 1.0, 0.0, 0.0, 0.0, 1.0, 0.5, 0.5],
    [2.0, 1.0, 0.5, 0.25, 0.0, 1.0, 2.0, 1.0],
];

/// Its faces: a quad, a triangle beside it, a degenerate triangle, one without texture, and a quad of which one triangle is degenerate.
const FACES: [&[usize]; 5] = [
    &[0, 1, 2, 3],
    &[1, 4, 2],
    &[0, 1, 1],
    &[5, 6, 7],
    &[2, 4, 8, 8],
];

/// Where each frame of it comes from, and how many triangles stand behind it, by document 01's steps 6 to 9; nothing where it is absent.
/// The quad is cut from corner 0 to 2, and both of its triangles reach these two. Round vertices 0 to 4 and 8 stand 2, 2, 4, 1, 2 and 1
/// triangles. Of the last face corners 0, 1 and 3 are sound.
const ORIGINS: [Option<(Origin, u32)>; 17] = [
    Some((Origin::Combined, 4)),
    Some((Origin::Single, 2)),
    Some((Origin::Combined, 8)),
    Some((Origin::Single, 1)),
    Some((Origin::Single, 2)),
    Some((Origin::Single, 2)),
    Some((Origin::Single, 4)),
    Some((Origin::Copied, 4)),
    Some((Origin::Copied, 2)),
    Some((Origin::Copied, 2)),
    None,
    None,
    None,
    Some((Origin::Single, 4)),
    Some((Origin::Single, 2)),
    Some((Origin::Filled, 1)),
    Some((Origin::Single, 1)),
];

/// The mesh.
fn steel() -> Faces {
    let corner = |&vertex: &usize| -> Corner {
        let [x, y, z, a, b, c, s, t] = VERTICES[vertex];
        ([x, y, z], [a, b, c], [s, t])
    };
    Faces::of(FACES.map(|face| face.iter().map(corner).collect::<Vec<_>>()))
}

/// What a record tells of where it comes from.
fn told(record: Record) -> Option<(Origin, Option<u32>)> {
    match record {
        Record::Present(frame) => Some((frame.origin, frame.behind)),
        Record::Absent => None,
        other => panic!("{other:?}"),
    }
}

#[test]
fn frames_say_where_they_come_from() {
    let (steel, mut buffers) = (steel(), Buffers::new());
    let wanted = ORIGINS.map(|known| known.map(|(origin, behind)| (origin, Some(behind))));
    let answer = buffers.frames(steel.mesh(), -1.0).expect("it is refused");
    let readings = answer
        .readings()
        .map(|(_, reading)| told(Record::from(reading)));
    assert_eq!(readings.collect::<Vec<_>>(), wanted);
    // words 10 and 11 themselves
    let mark = |origin| match origin {
        Origin::Single => 1,
        Origin::Combined => 2,
        Origin::Copied => 3,
        Origin::Filled => 4,
        Origin::NotRecorded => 0,
    };
    let words = ORIGINS.map(|known| known.map_or([0, 0], |(origin, n)| [mark(origin), n]));
    let slots = answer.words().chunks_exact(12);
    let last: Vec<[u32; 2]> = slots.map(|slot| [slot[10], slot[11]]).collect();
    assert_eq!(last, words);
    // on a card and back
    let mut card = Vec::new();
    answer.write_card(&mut card).expect("it is not written");
    let card = buffers.read_card(&card, 17).expect("it is not read");
    assert_eq!(card.kind, Kind::New);
    assert_eq!(card.records().map(told).collect::<Vec<_>>(), wanted);
}

#[test]
fn an_old_card_has_the_same_frames_without_their_origins() {
    let (steel, mut buffers, mut card) = (steel(), Buffers::new(), vec![7]);
    let answer = buffers.frames(steel.mesh(), -1.0).expect("it is refused");
    let made: Vec<Reading> = answer.readings().map(|(_, reading)| reading).collect();
    answer.write_card_as(Kind::Old, &mut card).unwrap();
    // the very bytes that were written before
    assert!(card == include_bytes!("old/steel.card"));
    let mut new = Vec::new();
    answer.write_card_as(Kind::New, &mut new).unwrap();
    let mut usual = Vec::new();
    answer.write_card(&mut usual).unwrap();
    assert!(new == usual && new != card);
    let back = buffers.read_card(&card, 17).expect("it is not read");
    assert_eq!(back.kind, Kind::Old);
    for (record, reading) in back.records().zip(made) {
        let wanted = match reading {
            Reading::Absent => Record::Absent,
            Reading::Present(mut frame) => {
                (frame.origin, frame.behind) = (Origin::NotRecorded, None);
                Record::Present(frame)
            }
            other => panic!("{other:?}"),
        };
        assert_eq!(record, wanted);
    }
}

#[test]
fn each_origin_has_its_word() {
    let words = [
        (Origin::Single, "single"),
        (Origin::Combined, "combined"),
        (Origin::Copied, "copied"),
        (Origin::Filled, "filled"),
        (Origin::NotRecorded, "not recorded"),
    ];
    for (origin, word) in words {
        assert_eq!(origin.word(), word);
    }
}
