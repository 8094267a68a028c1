//! Where frames come from, as the command's user sees it; and cards from before request E7.
#[allow(dead_code, reason = "not every test needs all of it")]
mod room;

use dokphalun::{Kind, write_card_as};
use models::files::{self as shapes, FACES};
use room::{Ran, Room};

/// A mesh with frames of every origin and an absent face, and the card of it that was written before request E7.
const MESH: &str = include_str!("../../bindings/rust/tests/old/steel.ply");
const CARD: &[u8] = include_bytes!("../../bindings/rust/tests/old/steel.card");

/// Two columns of its report: each slot's origin, and how many triangles stand behind it.
const ORIGINS: [&str; 17] = [
    "combined,4",
    "single,2",
    "combined,8",
    "single,1",
    "single,2",
    "single,2",
    "single,4",
    "copied,4",
    "copied,2",
    "copied,2",
    ",",
    ",",
    ",",
    "single,4",
    "single,2",
    "filled,1",
    "single,1",
];

/// A folder with that mesh and both of its cards: old.card from before, and new.card with its report and a picture of origins.
fn steel(name: &str) -> Room {
    let room = Room::new(name);
    room.put("steel.ply", MESH);
    room.put("old.card", CARD);
    room.run("frames steel.ply -o new.card --report new.csv --picture new.svg --origins")
        .ends(
            3,
            "origins       8 single, 2 combined, 3 copied, 1 filled\n",
        );
    room
}

/// The rows of a report without its titles, each cut before the columns of origin and count, and without the reason behind them.
fn rows(report: &str) -> Vec<(String, String)> {
    let rows = report.lines().skip(1).map(|row| {
        let (row, _) = row.rsplit_once(',').expect("a reason");
        let (at, _) = row.rmatch_indices(',').nth(1).expect("two columns");
        (row[..at].to_string(), row[at + 1..].to_string())
    });
    rows.collect()
}

#[test]
fn the_report_says_where_frames_come_from() {
    let room = steel("report");
    let report = room.text("new.csv");
    assert!(
        report
            .lines()
            .next()
            .unwrap()
            .ends_with(",orientation,origin,behind,reason")
    );
    let origins: Vec<String> = rows(&report).into_iter().map(|(_, last)| last).collect();
    assert_eq!(origins, ORIGINS);
    // each row has a value or nothing in every column
    let columns = |row: &str| row.matches(',').count();
    assert!(report.lines().all(|row| columns(row) == 15), "{report}");
    let ran = room.run("read new.card --total 17 --mesh steel.ply --report again.csv");
    ran.ends(
        3,
        "kind          card of the new kind: twelve words a record\n",
    );
    ran.ends(
        3,
        "origins       8 single, 2 combined, 3 copied, 1 filled\n",
    );
    assert_eq!(room.text("again.csv"), report);
}

#[test]
fn a_card_from_before_is_read_and_said_to_be_old() {
    let room = steel("before");
    let ran = room.run("read old.card --total 17 --mesh steel.ply --report old.csv");
    ran.ends(3, "kind          card of the old kind: ten words a record; where the frames come from is not recorded\n");
    ran.ends(3, "origins       14 not recorded\n");
    ran.ends(3, "3 ABSENT; 14 of 17 slots present");
    for fault in ["OTHER KIND", "NO ORIGIN"] {
        assert!(!ran.said.contains(fault), "{}", ran.said);
    }
    // the same readings and numbers as on the new card, and no origin
    let (old, new) = (rows(&room.text("old.csv")), rows(&room.text("new.csv")));
    assert_eq!([old.len(), new.len()], [ORIGINS.len(); 2]);
    for ((old, said), (new, told)) in old.into_iter().zip(new) {
        assert_eq!(old, new);
        let wanted = if told == "," { "," } else { "not recorded," };
        assert_eq!(said, wanted, "{old}");
    }
    let mut spoilt = CARD.to_vec();
    spoilt[100] ^= 1;
    room.put("spoilt.card", &spoilt);
    let ran = room.run("read spoilt.card --total 17");
    ran.ends(6, "card of the old kind");
    ran.ends(6, "LOST BLOCKS   0\n");
    ran.ends(6, "LOST          records 0 to 11 ");
}

#[test]
fn blocks_of_the_other_kind_are_told_and_never_good() {
    let room = steel("both");
    let new = room.bytes("new.card");
    // 12 records on an old block, and 7 on a new one
    room.put("mixed.card", [&CARD[..512], &new[512..]].concat());
    let ran = room.run("read mixed.card --total 17");
    ran.ends(6, "card of the old kind");
    ran.ends(
        6,
        "OTHER KIND    7 records on blocks of the new kind, which are not read\n",
    );
    ran.ends(6, "LOST          records 12 to 16 ");
    // 10 records on a new block, and 5 on an old one
    room.put("mixed.card", [&new[..512], &CARD[512..]].concat());
    let ran = room.run("read mixed.card --total 17");
    ran.ends(6, "card of the new kind");
    ran.ends(
        6,
        "OTHER KIND    5 records on blocks of the old kind, which are not read\n",
    );
    ran.ends(6, "LOST          records 10 to 16 ");
    // a whole old card, and a new block behind it
    room.put("more.card", [CARD, &new[..512]].concat());
    room.run("read more.card --total 17")
        .ends(6, "TORN BYTES    512 past the last whole block");
}

/// The words of a block.
fn words(block: &[u8]) -> Vec<u32> {
    let words = block.as_chunks().0.iter();
    words.map(|word| u32::from_le_bytes(*word)).collect()
}

/// A new card with other words in a record from a word on, and a sum that is right.
fn with(card: &[u8], record: usize, word: usize, put: &[u32]) -> Vec<u8> {
    let mut card = card.to_vec();
    let block = &mut card[record / 10 * 512..][..512];
    let mut words = words(block);
    words[7 + 12 * (record % 10) + word..][..put.len()].copy_from_slice(put);
    words[127] = !words[..127]
        .iter()
        .fold(0, |sum, word| word.wrapping_add(sum));
    let bytes: Vec<u8> = words.into_iter().flat_map(u32::to_le_bytes).collect();
    block.copy_from_slice(&bytes);
    card
}

/// A folder with a mesh of 24 slots, six faces of 3 and 4 by turns, and its card, on which each is present.
fn sound(name: &str) -> (Room, Vec<u8>) {
    let room = Room::new(name);
    let faces = [FACES[0], FACES[1], FACES[0], FACES[1], FACES[0], FACES[1]];
    room.put("a.ply", shapes::ply_bytes(&faces));
    room.run("frames a.ply -o a.card")
        .ends(0, "a.card: 24 records in 3 blocks");
    let card = room.bytes("a.card");
    (room, card)
}

/// How many frames the line `origins` counts in all.
fn counted(ran: &Ran) -> usize {
    let line = ran
        .said
        .lines()
        .find_map(|line| line.strip_prefix("origins"));
    let counts = line.expect("no line").trim().split(", ");
    counts
        .map(|part| part.split_once(' ').unwrap().0.parse::<usize>().unwrap())
        .sum()
}

#[test]
fn a_new_card_s_frame_that_comes_from_nowhere_is_loud_and_never_good() {
    let (room, card) = sound("nowhere");
    // each of the four, and any count but none, is a word that answers have
    for put in [[1, 1], [2, 2], [3, 1], [4, u32::MAX]] {
        room.put("b.card", with(&card, 13, 10, &put));
        room.run("read b.card --total 24")
            .ends(0, "all 24 slots are good (exit status 0)");
    }
    for put in [[0, 1], [5, 1], [u32::MAX, 1], [0, 0], [1, 0], [4, 0]] {
        room.put("b.card", with(&card, 13, 10, &put));
        let ran = room.run("read b.card --total 24");
        ran.ends(6, "present       23\n");
        ran.ends(6, "NO ORIGIN     1\n");
        ran.ends(6, "NO ORIGIN     records 13 (counted from 0;");
        ran.ends(6, "NOT GOOD      1 NO ORIGIN; 23 of 24 slots present. ");
        assert_eq!(counted(&ran), 23, "{}", ran.said);
        assert!(!ran.said.contains("LOST"), "{}", ran.said);
        let line = "read b.card --total 24 --mesh a.ply --report b.csv --picture b.svg --origins";
        room.run(line).ends(
            6,
            "NO ORIGIN     face 3, corner 1: the card's words for origin",
        );
        assert!(
            room.text("b.csv")
                .contains("\n3,1,13,NO ORIGIN,,,,,,,,,,,,\n")
        );
        assert!(room.text("b.svg").contains(">NO ORIGIN (1)<"));
    }
    // an absent record has no origin, and is absent as before
    room.put("b.card", with(&card, 13, 0, &[0; 12]));
    room.run("read b.card --total 24")
        .ends(3, "1 ABSENT; 23 of 24 slots present");
}

#[test]
fn an_old_card_without_origins_is_good() {
    let (room, card) = sound("good_before");
    let blocks = card.chunks_exact(512).map(words);
    let records = blocks
        .flat_map(|block| block[7..127].to_vec())
        .collect::<Vec<_>>();
    let records = records.chunks_exact(12).take(24);
    let old: Vec<u32> = records.flat_map(|slot| slot[..10].to_vec()).collect();
    let mut card = vec![];
    write_card_as(Kind::Old, &old, &mut card).unwrap();
    room.put("old.card", card);
    let ran = room.run("read old.card --total 24");
    ran.ends(0, "origins       24 not recorded\n");
    ran.ends(0, "all 24 slots are good (exit status 0)");
}

#[test]
fn origins_add_up_to_what_is_present() {
    let (room, card) = sound("adding");
    assert_eq!(counted(&room.run("read a.card --total 24")), 24);
    // without a tangent
    room.put("b.card", with(&card, 13, 1, &[0; 3]));
    let ran = room.run("read b.card --total 24");
    ran.ends(3, "present       23\n");
    ran.ends(3, "NO DIRECTION  1\n");
    assert_eq!(counted(&ran), 23, "{}", ran.said);
}

#[test]
fn the_picture_marks_origins_where_that_is_asked_for() {
    let room = steel("picture");
    let marked = room.text("new.svg");
    // a ring, a square and a diamond: as many as there are frames of the origin, and one in the legend
    for (colour, start, text, count) in [
        ("#15803d", "a3 3 0 1 0 6 0", "combined (2)", 2),
        ("#ea580c", "h7v7h-7z", "copied (3)", 3),
        ("#0e7490", "l5 5l-5 5l-5-5z", "filled (1)", 1),
    ] {
        assert_eq!(marked.matches(colour).count(), 2, "{text}");
        assert_eq!(marked.matches(start).count(), count + 1, "{text}");
        assert!(marked.contains(text), "{text}");
    }
    assert!(marked.contains("single: no mark (8)") && !marked.contains("not recorded"));
    // without the option nothing of it
    room.run("frames steel.ply -o a.card --picture plain.svg")
        .ends(3, "picture       plain.svg");
    let plain = room.text("plain.svg");
    for part in ["#15803d", "#ea580c", "#0e7490", "no mark", "combined"] {
        assert!(!plain.contains(part), "{part}");
    }
    // of an old card there is nothing to mark
    room.run("read old.card --total 17 --mesh steel.ply --picture old.svg --origins")
        .ends(3, "picture       old.svg");
    let old = room.text("old.svg");
    assert!(old.contains("not recorded: no mark (14)"));
    assert!(old.contains("copied (0)"));
    assert_eq!(old.matches("#ea580c").count(), 1);
}
