//! `dokphalun read` and `dokphalun demo` as their user runs them.
#[allow(dead_code, reason = "not every test needs all of it")]
mod room;

use models::files::{self as shapes, FACES, FIVE};
use room::Room;

/// A folder with a mesh of 24 slots and its card of three blocks.
fn with_card(name: &str) -> Room {
    let room = Room::new(name);
    let faces = [FACES[0], FACES[1], FACES[0], FACES[1], FACES[0], FACES[1]];
    room.put("a.ply", shapes::ply_bytes(&faces));
    room.run("frames a.ply -o a.card")
        .ends(0, "a.card: 24 records in 3 blocks");
    room
}

#[test]
fn a_good_card() {
    let room = with_card("good");
    room.run("read a.card --total 24")
        .ends(0, "all 24 slots are good (exit status 0)");
    room.run("read a.card --total 24 --mesh a.ply")
        .ends(0, "torn bytes    0");
}

/// docs/COMMAND.md, 'What its 0 says': a face without slots leaves nothing on the card.
#[test]
fn only_with_its_mesh_does_reading_see_a_face_without_slots() {
    let room = Room::new("without");
    let faces: Vec<&[usize]> = FACES.into_iter().chain([FIVE]).collect();
    room.put("five.ply", shapes::ply_bytes(&faces));
    room.run("frames five.ply -o five.card").ends(3, "NO SLOT");
    room.run("read five.card --total 11 --mesh five.ply")
        .ends(3, "NO SLOT       face 3: 5 corners");
    room.run("read five.card --total 11")
        .ends(0, "all 11 slots are good (exit status 0)");
    room.run("links five.ply -o five.lists").ends(0, "");
    room.run("examine five.ply five.lists").ends(0, "accepted");
}

#[test]
fn lost_blocks_are_never_good() {
    let room = with_card("lost");
    let mut card = room.get("a.card").unwrap();
    card[700] ^= 1;
    room.put("b.card", &card);
    room.run("read b.card --total 24")
        .ends(6, "LOST          records 10 to 19");
    let ran = room.run("read b.card --total 24 --mesh a.ply --report b.csv --picture b.svg");
    ran.ends(6, "LOST BLOCKS   1\n");
    ran.ends(6, "LOST          face 3, corner 0 1 2 3: not on the card");
    ran.ends(6, "10 LOST; 14 of 24 slots present");
    assert!(room.text("b.csv").contains("\n3,0,12,LOST,,,,,,,,,,,,\n"));
    assert!(room.text("b.svg").contains("<path fill=\"url(#lost)\""));
}

#[test]
fn torn_bytes_and_wrong_totals() {
    let room = with_card("torn");
    let card = room.get("a.card").unwrap();
    room.put("cut.card", &card[..600]);
    room.put("more.card", [&card[..], &[0; 7]].concat());
    room.put("empty.card", "");
    room.runs(include_str!("tables/torn.txt"));
}

#[test]
fn the_demo_leaves_card_report_and_pictures() {
    let room = Room::new("demo");
    for _ in 0..2 {
        room.run("demo").ends(
            0,
            "the first would end with exit status 3 and the second with 6",
        );
    }
    for (name, has) in [
        ("tank.csv", ",ABSENT,"),
        ("tank.svg", "ABSENT"),
        ("damaged.csv", ",LOST,"),
        ("damaged.svg", "url(#lost)"),
    ] {
        assert!(
            room.text(&format!("dokphalun-demo/{name}")).contains(has),
            "{name}"
        );
    }
    room.run("read dokphalun-demo/tank.card --total 2022 --mesh dokphalun-demo/tank.ply")
        .ends(3, "18 ABSENT, 1 face WITHOUT SLOTS; 2004 of 2022");
}
