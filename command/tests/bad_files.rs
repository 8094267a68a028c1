//! Files that are no meshes: a sentence with the place, exit status 5, and nothing written.
#[allow(dead_code, reason = "not every test needs all of it")]
mod room;

use models::files::{self as shapes, FACES};
use room::{Room, rows};

/// Runs `frames` on a file and sees what it says.
fn says(room: &Room, name: &str, bytes: impl AsRef<[u8]>, said: &str) {
    room.put(name, bytes);
    let ran = room.run(&format!(
        "frames {name} -o bad.card --report bad.csv --picture bad.svg"
    ));
    ran.ends(5, &format!("{name}: {said}"));
    assert!(room.names().iter().all(|name| !name.starts_with("bad.")));
}

/// Each edit of a sound file: what is replaced, by what, and what is said.
fn edited(room: &str, name: &str, sound: &str, edits: &str) {
    let room = Room::new(room);
    for [from, to, said] in rows(edits) {
        assert!(sound.contains(&from), "{from}");
        says(&room, name, sound.replacen(&from, &to, 1), &said);
    }
}

#[test]
fn headers_that_lie() {
    edited(
        "headers",
        "a.ply",
        &shapes::ply_text(&FACES),
        include_str!("tables/headers.txt"),
    );
}

#[test]
fn meshes_that_lack_something() {
    edited(
        "lacking",
        "a.ply",
        &shapes::ply_text(&FACES),
        include_str!("tables/lacking.txt"),
    );
}

#[test]
fn obj_files() {
    edited(
        "obj",
        "a.obj",
        &shapes::obj(&FACES),
        include_str!("tables/obj.txt"),
    );
}

#[test]
fn bytes_that_are_cut_or_too_many() {
    let room = Room::new("cut");
    let good = shapes::ply_bytes(&FACES);
    let (end, last) = (good.len(), good.len() - 13);
    let within = format!("byte {}: the file ends within a row", end - 1);
    says(&room, "a.ply", &good[..end - 1], &within);
    let after = format!("byte {last}: the file ends after 2 of 3 rows of element face");
    says(&room, "a.ply", &good[..last], &after);
    says(
        &room,
        "a.ply",
        [&good[..], b"x"].concat(),
        &format!("byte {end}: the file goes on"),
    );
    let mut wide = good.clone();
    wide[end - 4..].copy_from_slice(&i32::MAX.to_le_bytes());
    let named = format!("byte {last}: face 2, corner 2 names vertex 2147483647");
    says(&room, "a.ply", wide, &named);
    for length in (0..end).step_by(7) {
        says(&room, "cut.ply", &good[..length], "");
    }
}

#[test]
fn a_face_without_texture() {
    let room = Room::new("untextured");
    let mut wedges = shapes::ply_wedges(&FACES[2..]);
    let list = wedges.len() - 4 - 24 - 1;
    wedges.splice(list..list + 25, [0]);
    let said = "face 0 has 0 numbers of texture for 3 corners";
    says(
        &room,
        "a.ply",
        &wedges,
        &format!("byte {}: {said}", list - 13),
    );
}

#[test]
fn what_is_no_file_or_no_mesh() {
    let room = Room::new("nofile");
    room.run("frames none.ply -o a.card")
        .ends(5, "none.ply: No such file");
    room.run("frames . -o a.card").ends(5, "directory");
    says(&room, "a.stl", "solid", "line 1: neither PLY");
    says(&room, "a.ply", "", "line 1: ");
    room.run("read none.card --total 1")
        .ends(5, "none.card: No such file");
}
