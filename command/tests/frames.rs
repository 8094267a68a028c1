//! `dokphalun frames` as its user runs it.
#[allow(dead_code, reason = "not every test needs all of it")]
mod room;

use dokphalun::Buffers;
use models::files::{self as shapes, FACES, FIVE, VERTICES};
use models::{Corner, Faces};
use room::Room;

/// A triangle and one whose texture has no area.
const ABSENT: &str = "ply\nformat ascii 1.0\nelement vertex 6\nproperty float x\nproperty float y\nproperty float z\n\
property float nx\nproperty float ny\nproperty float nz\nproperty float s\nproperty float t\n\
element face 2\nproperty list uchar int vertex_indices\nend_header\n\
0 0 0 0 0 1 0 0\n1 0 0 0 0 1 1 0\n0 1 0 0 0 1 0 1\n5 0 0 0 0 1 .5 .5\n6 0 0 0 0 1 .5 .5\n5 1 0 0 0 1 .5 .5\n3 0 1 2\n3 3 4 5\n";

/// The card of those faces, made without any file.
fn card() -> Vec<u8> {
    let corner = |&vertex: &usize| -> Corner {
        let [x, y, z, a, b, c, s, t] = VERTICES[vertex];
        ([x, y, z], [a, b, c], [s, t])
    };
    let corners = |face: &[usize]| face.iter().map(corner).collect::<Vec<_>>();
    let (faces, mut buffers, mut card) = (Faces::of(FACES.map(corners)), Buffers::new(), vec![]);
    let answer = buffers.frames(faces.mesh(), -1.0).expect("it is refused");
    answer.write_card(&mut card).expect("it is not written");
    card
}

#[test]
fn every_form_gives_the_same_card() {
    let room = Room::new("forms");
    room.put("text.ply", shapes::ply_text(&FACES));
    room.put("bytes.ply", shapes::ply_bytes(&FACES));
    room.put("wedges.ply", shapes::ply_wedges(&FACES));
    room.put("sheet.OBJ", shapes::obj(&FACES));
    room.put("windows.obj", shapes::obj(&FACES).replace('\n', "\r\n"));
    for mesh in [
        "text.ply",
        "bytes.ply",
        "wedges.ply",
        "sheet.OBJ",
        "windows.obj",
    ] {
        let ran = room.run(&format!("frames {mesh} -o {mesh}.card"));
        ran.ends(0, "all 11 slots are good (exit status 0)");
        ran.ends(
            0,
            &format!("dokphalun read {mesh}.card --total 11 --mesh {mesh}"),
        );
        assert_eq!(room.bytes(&format!("{mesh}.card")), card(), "{mesh}");
    }
}

#[test]
fn an_absent_corner_is_loud_everywhere() {
    let room = Room::new("absent");
    room.put("a.ply", ABSENT);
    let ran = room.run("frames a.ply -o a.card --report a.csv --picture a.svg");
    ran.ends(3, "ABSENT        3\n");
    ran.ends(3, "ABSENT        face 1, corner 0 1 2: all its triangles are group_with_any and no group reached it; likely cause: its texture coordinates enclose no area (line 22 of the mesh)");
    ran.ends(3, "An absent reading is not a good reading.");
    let report = room.text("a.csv");
    assert!(
        report.contains("\n0,0,0,present,1,0,0,0,1,0,1,1,1,single,1,\n"),
        "{report}"
    );
    assert!(
        report.contains(
            "\n1,0,3,ABSENT,,,,,,,,,,,,all its triangles are group_with_any and no group reached it\n"
        ),
        "{report}"
    );
    assert!(
        room.text("a.svg")
            .contains("<title>ABSENT: 3 of the corners of face 1</title>")
    );
    assert_eq!(room.names(), ["a.card", "a.csv", "a.ply", "a.svg"]);
    room.run("read a.card --total 6 --mesh a.ply")
        .ends(3, "ABSENT        face 1, corner 0 1 2");
}

#[test]
fn a_frame_without_a_direction_is_not_good() {
    let room = Room::new("undirected");
    let normals_along = shapes::ply_text(&FACES[..1]).replace("0 0 1 ", "1 0 0 ");
    room.put("a.ply", normals_along);
    let ran = room.run("frames a.ply -o a.card --report a.csv --picture a.svg");
    ran.ends(
        3,
        "NO DIRECTION  face 0, corner 0 1 2 3: a direction is zero; likely cause: a normal lies along it, or",
    );
    assert!(
        room.text("a.csv")
            .contains("\n0,0,0,NO DIRECTION,,,,,,,,,,,,\n")
    );
    assert!(
        room.text("a.svg")
            .contains("4 NO DIRECTION; 0 of 4 slots present")
    );
}

#[test]
fn a_face_too_large_for_single_precision_is_absent() {
    let room = Room::new("far");
    let head = "ply\nformat ascii 1.0\nelement vertex 3\n";
    let names = ["x", "y", "z", "nx", "ny", "nz", "u", "v"];
    let properties = names
        .map(|name| format!("property float {name}\n"))
        .concat();
    let face = "element face 1\nproperty list uchar int vertex_indices\nend_header\n";
    let rows = "0 0 0 0 0 1 0 0\n1e20 0 0 0 0 1 1 0\n0 1 0 0 0 1 0 1\n3 0 1 2\n";
    room.put("far.ply", format!("{head}{properties}{face}{rows}"));
    let ran = room.run("frames far.ply -o far.card --report far.csv");
    ran.ends(
        3,
        "ABSENT        face 0, corner 0 1 2: all its triangles are group_with_any and no group reached it; likely cause: its texture or its sides are too small or too large for single precision",
    );
    assert!(
        room.text("far.csv")
            .contains("\n0,0,0,ABSENT,,,,,,,,,,,,all its triangles are")
    );
}

#[test]
fn a_face_without_slots_is_not_good() {
    let room = Room::new("five");
    let faces: Vec<&[usize]> = FACES.into_iter().chain([FIVE]).collect();
    room.put("five.ply", shapes::ply_bytes(&faces));
    let ran = room.run("frames five.ply -o five.card --report five.csv");
    ran.ends(3, "NO SLOT       face 3: 5 corners");
    assert!(
        room.text("five.csv")
            .contains("\n3,4,,NO SLOT,,,,,,,,,,,,\n")
    );
    room.put("only.ply", shapes::ply_text(&[FIVE]));
    room.run("frames only.ply -o only.card")
        .ends(3, "NOTHING WAS READ");
    room.put("none.ply", shapes::ply_text(&[]));
    room.run("frames none.ply -o none.card --picture none.svg")
        .ends(3, "NOTHING WAS READ");
}

#[test]
fn a_refused_mesh_writes_nothing() {
    let room = Room::new("refused");
    room.put(
        "nan.ply",
        ABSENT.replace("1 0 0 0 0 1 1 0", "1 nan 0 0 0 1 1 0"),
    );
    room.put("old.card", "as it was");
    let ran = room.run("frames nan.ply -o old.card --report r.csv --picture p.svg");
    ran.ends(4, "refusal 4: face 0, corner 1 holds a NaN or an infinity (the face is at line 21 of the file)");
    ran.ends(4, "Its position is [1.0, NaN, 0.0]");
    ran.ends(4, "What to do: scan that place again");
    assert_eq!(room.names(), ["nan.ply", "old.card"]);
    assert_eq!(room.text("old.card"), "as it was");
    room.put(
        "bare.ply",
        ABSENT.replace("0 1 0 0 0 1 0 1", "0 1 0 0 -0 1e-39 0 1"),
    );
    let ran = room.run("frames bare.ply -o old.card --report r.csv --picture p.svg");
    ran.ends(4, "refusal 7: face 0, corner 2 has no normal: its three numbers count as zero (the face is at line 21 of the file)");
    ran.ends(
        4,
        "Its position is [0.0, 1.0, 0.0], its normal [0.0, -0.0, 1e-39], its texture [0.0, 1.0]",
    );
    ran.ends(4, "What to do: the scanner gave no normal here: scan that place again, or leave the face out and treat it as absent; never put another normal there.");
    assert_eq!(room.names(), ["bare.ply", "nan.ply", "old.card"]);
    assert_eq!(room.text("old.card"), "as it was");
    let many: Vec<&[usize]> = vec![FACES[2]; 65_537];
    room.put("many.ply", shapes::ply_bytes(&many));
    room.run("frames many.ply -o m.card")
        .ends(4, "refusal 1: 65537 faces; at most 65536");
    room.run("read old.card --total 196611 --mesh many.ply")
        .ends(4, "refusal 1: 65537 faces");
    room.put("full.ply", shapes::ply_bytes(&many[1..]));
    room.run("frames full.ply -o f.card")
        .ends(0, "all 196608 slots are good");
    room.run("frames full.ply -o g.card --threshold nan")
        .ends(4, "refusal 3");
    assert_eq!(
        room.names(),
        [
            "bare.ply", "f.card", "full.ply", "many.ply", "nan.ply", "old.card"
        ]
    );
}

#[test]
fn the_threshold_is_a_cosine_or_an_angle() {
    let room = Room::new("threshold");
    room.put("a.ply", shapes::ply_text(&FACES));
    let all = [
        "-o usual",
        "-o angle --angle 180",
        "-o cosine --threshold -1",
        "-o none --angle 0",
    ];
    for words in all {
        room.run(&format!("frames a.ply {words}"))
            .ends(0, "present");
    }
    assert_eq!(room.bytes("usual"), card());
    assert_eq!(room.bytes("angle"), card());
    assert_eq!(room.bytes("cosine"), card());
    assert_ne!(room.bytes("none"), card());
    room.runs(include_str!("tables/thresholds.txt"));
    assert_eq!(room.get("x"), None);
}

#[test]
fn a_command_line_that_is_not_understood() {
    let room = Room::new("usage");
    room.put("a.ply", shapes::ply_text(&FACES));
    room.runs(include_str!("tables/words.txt"));
    assert_eq!(room.names(), ["a.ply"]);
}

#[test]
fn what_cannot_be_written_leaves_nothing() {
    let room = Room::new("unwritten");
    room.put("a.ply", shapes::ply_text(&FACES));
    let ran = room.run("frames a.ply -o a.card --report not/there.csv");
    ran.ends(7, "not/there.csv is not written");
    room.run("frames a.ply -o a.card --report .")
        .ends(7, ". is not written");
    assert_eq!(room.names(), ["a.ply"]);
}

/// An OBJ file of so many triangles; each starts so far to the right of the one before, and has texture of its own.
fn triangles(count: usize, apart: usize) -> String {
    let mut text = String::from("vn 0 0 1\n");
    for i in 0..count {
        let x = i * apart;
        text += &format!("v {x} {i} 0\nv {} {i} 0\nv {x} {} 0\n", x + 1, i + 1);
        text += &format!("vt {x} {i}\nvt {} {i}\nvt {x} {}\n", x + 1, i + 1);
        let [a, b, c] = [1, 2, 3].map(|k| 3 * i + k);
        text += &format!("f {a}/{a}/1 {b}/{b}/1 {c}/{c}/1\n");
    }
    text
}

#[test]
fn the_islands_of_a_large_mesh_are_made_on_all_cores() {
    let cores = std::thread::available_parallelism().map_or(1, usize::from);
    let room = Room::new("islands");
    // (faces, how far apart, whether it is made in parts)
    for (faces, apart, parts) in [(4097, 3, cores > 1), (4096, 3, false), (4097, 0, false)] {
        let mesh = triangles(faces, apart);
        room.put("mesh.obj", &mesh);
        let ran = room.run("frames mesh.obj -o mesh.card");
        ran.ends(0, &format!("all {} slots are good", 3 * faces));
        let said = format!("parts         {cores}, of whole islands, one a core\n");
        assert_eq!(ran.said.contains(&said), parts, "{}", ran.said);
        assert_eq!(ran.said.contains("\nparts "), parts, "{}", ran.said);
        // the same words as from one call
        let surface = command::obj::read(mesh.as_bytes()).expect("it is not read");
        let (mut buffers, mut card) = (dokphalun::Buffers::new(), vec![]);
        let answer = buffers.frames(surface.mesh(), -1.0).expect("it is refused");
        answer.write_card(&mut card).unwrap();
        assert!(room.get("mesh.card") == Some(card));
    }
}
