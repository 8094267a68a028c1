//! `dokphalun links` and `dokphalun examine` as their user runs them.
#[allow(dead_code, reason = "not every test needs all of it")]
mod room;

use models::files::{self as shapes, FACES, FIVE};
use room::{Room, rows};

/// What `links` writes for a quad and a triangle beside it.
const LISTS: &str = "dokphalun-lists 1
# face 0, corners 0 1 2 (triangle 0)
link 0 7 4
group 1 2 3
orientation 1
# face 0, corners 0 2 3 (triangle 1)
link 3 0 0
group 1 3 4
orientation 1
# face 1, corners 0 1 2 (triangle 2)
link 2 0 0
group 3 2 5
orientation 1
end 3 3 3
";

/// A folder with a quad and a triangle beside it, and our own lists of them.
fn with_lists(name: &str) -> Room {
    let room = Room::new(name);
    room.put("a.ply", shapes::ply_text(&[FACES[0], &[2, 1, 5]]));
    room.run("links a.ply -o a.lists").ends(0, "4 of 9 sides");
    room
}

#[test]
fn our_own_lists_are_written_and_accepted() {
    let room = with_lists("own");
    assert_eq!(room.text("a.lists"), LISTS);
    let ran = room.run("links a.ply -o b.lists");
    ran.ends(0, "triangles     3 sound\n");
    ran.ends(0, "groups        5\n");
    ran.ends(0, "to examine    dokphalun examine a.ply b.lists\n");
    let ran = room.run("examine a.ply a.lists");
    ran.ends(0, "verdict       the lists are accepted (exit status 0)\n");
    ran.ends(0, "triangles     3 sound\n");
    assert_eq!(room.names(), ["a.lists", "a.ply", "b.lists"]);
}

#[test]
fn faces_without_triangles_are_passed_over() {
    let room = Room::new("unsound");
    let faces = [FIVE, &[0, 0, 1], FACES[2], FACES[1], &[3, 3, 3, 3]];
    room.put("a.obj", shapes::obj(&faces));
    room.run("links a.obj -o a.lists").ends(0, "3 sound");
    let lists = room.text("a.lists");
    assert!(lists.contains("# face 2, corners 0 1 2 (triangle 0)\n"));
    room.run("examine a.obj a.lists").ends(0, "accepted");
    room.put(
        "b.lists",
        lists.replacen("orientation 1", "orientation 7", 1),
    );
    let ran = room.run("examine a.obj b.lists");
    ran.ends(8, "objection 6: face 2, corners 0 1 2 (triangle 0): its orientation is neither 0 nor 1 (line 5 of the lists; the face is at line 35 of the mesh)");
    room.put("none.obj", shapes::obj(&[FIVE]));
    room.run("links none.obj -o none.lists").ends(0, "0 sound");
    assert_eq!(room.text("none.lists"), "dokphalun-lists 1\nend 0 0 0\n");
    room.run("examine none.obj none.lists").ends(0, "accepted");
    room.run("examine none.obj a.lists").ends(
        8,
        "objection 1: the links are 9 words, and the sound triangles of the mesh call for 0",
    );
}

#[test]
fn each_objection_is_named_with_its_place() {
    let room = with_lists("objections");
    for [from, to, said] in rows(include_str!("tables/objections.txt")) {
        assert!(LISTS.contains(&from), "{from}");
        room.put("b.lists", LISTS.replacen(&from, &to, 1));
        let ran = room.run("examine a.ply b.lists");
        ran.ends(8, &format!("dokphalun: b.lists: objection {said}"));
        ran.ends(
            8,
            "NOT ACCEPTED: use none of them. See docs/EXAMINER.md\n(exit status 8)",
        );
    }
}

#[test]
fn corners_of_two_orientations_and_a_severed_group() {
    let room = Room::new("corners");
    // the second triangle is mirrored; the third shares one corner with the first, and no side
    let mesh = "vn 0 0 1\nv 0 0 0\nv 1 0 0\nv 0 1 0\nv 1 1 0\nv -1 0 0\nv 0 -1 0\n\
vt 0 0\nvt 1 0\nvt 0 1\nvt .25 .25\nvt -1 0\nvt 0 -1\n\
f 1/1/1 2/2/1 3/3/1\nf 3/3/1 2/2/1 4/4/1\nf 5/5/1 6/6/1 1/1/1\n";
    room.put("a.obj", mesh);
    room.run("links a.obj -o a.lists").ends(0, "2 of 9 sides");
    let lists = room.text("a.lists");
    let edits = [
        (
            "group 4 5 6",
            "group 3 5 6",
            "objection 10: face 1, side 0 to 1 (row 3): the corner where it starts is in a group with a lower row whose triangle has the other orientation (line 8 of the lists; the face is at line 15 of the mesh)",
        ),
        (
            "group 7 8 9",
            "group 7 8 1",
            "objection 12: face 2, side 2 to 0 (row 8): the corner where it starts is in a group with a lower row from which no chain of linked sides that end there leads to it (line 12 of the lists; the face is at line 16 of the mesh)",
        ),
    ];
    for (from, to, said) in edits {
        assert!(lists.contains(from), "{lists}");
        room.put("b.lists", lists.replacen(from, to, 1));
        room.run("examine a.obj b.lists").ends(8, said);
    }
}

#[test]
fn blanks_comments_and_group_numbers_are_free() {
    let room = with_lists("free");
    let spread = LISTS.replace(' ', " \t  ").replace('\n', "  # so\r\n\n\n");
    room.put("b.lists", spread.replace("group", "\tgroup"));
    room.run("examine a.ply b.lists").ends(0, "accepted");
    let renamed = LISTS.replace("group 3 2 5", "group 3 2 4294967295");
    room.put("b.lists", renamed.trim_end());
    room.run("examine a.ply b.lists").ends(0, "accepted");
}

#[test]
fn files_that_are_no_lists() {
    let room = with_lists("nolists");
    for [from, to, said] in rows(include_str!("tables/lists.txt")) {
        assert!(LISTS.contains(&from), "{from}");
        room.put("b.lists", LISTS.replacen(&from, &to, 1));
        let ran = room.run("examine a.ply b.lists");
        ran.ends(5, &format!("b.lists: {said}"));
    }
    room.put("b.lists", "");
    room.run("examine a.ply b.lists")
        .ends(5, "b.lists: line 1: a file of lists starts");
    room.put("b.lists", [&b"\xFF\xFE"[..], LISTS.as_bytes()].concat());
    room.run("examine a.ply b.lists")
        .ends(5, "b.lists: line 1: ");
    room.run("examine a.ply none.lists")
        .ends(5, "none.lists: No such file");
    room.run("examine none.ply a.lists")
        .ends(5, "none.ply: No such file");
}

#[test]
fn no_word_of_a_file_of_lists_vanishes() {
    let whole = LISTS.trim_end().len();
    for length in 0..whole {
        let cut = command::listsfile::read(&LISTS.as_bytes()[..length]);
        assert!(cut.is_err(), "cut at {length}");
    }
    for line in 0..LISTS.lines().count() {
        let lines = LISTS.lines().enumerate().filter(|(i, _)| *i != line);
        let rest: Vec<&str> = lines.map(|(_, text)| text).collect();
        let read = command::listsfile::read(rest.join("\n").as_bytes());
        let comment = LISTS
            .lines()
            .nth(line)
            .is_some_and(|text| text.starts_with('#'));
        assert_eq!(read.is_ok(), comment, "without line {line}");
    }
}

#[test]
fn a_refused_mesh_is_told_as_frames_tells_it() {
    let room = with_lists("refusedlists");
    let bad = shapes::ply_text(&[FACES[0]]).replacen("1 1 0 ", "1 inf 0 ", 1);
    room.put("inf.ply", bad);
    room.put("old.lists", "as it was");
    let said = "refusal 4: face 0, corner 2 holds a NaN or an infinity (the face is at line 25 of the file). Its position is [1.0, inf, 0.0]";
    let ran = room.run("links inf.ply -o old.lists");
    ran.ends(4, said);
    ran.ends(4, "Nothing was written: old.lists is as it was");
    assert_eq!(room.text("old.lists"), "as it was");
    let ran = room.run("examine inf.ply a.lists");
    ran.ends(4, said);
    ran.ends(4, "What to do: scan that place again");
    ran.ends(4, "The lists were not looked at");
    let bare = shapes::ply_text(&[FACES[0]]).replacen("1 1 0 0 0 1 ", "1 1 0 0 0 0 ", 1);
    room.put("bare.ply", bare);
    let said = "refusal 7: face 0, corner 2 has no normal: its three numbers count as zero (the face is at line 25 of the file). Its position is [1.0, 1.0, 0.0], its normal [0.0, 0.0, 0.0]";
    room.run("links bare.ply -o old.lists").ends(4, said);
    assert_eq!(room.text("old.lists"), "as it was");
    let ran = room.run("examine bare.ply a.lists");
    ran.ends(4, said);
    ran.ends(4, "What to do: the scanner gave no normal here");
}

#[test]
fn lists_that_cannot_be_written() {
    let room = with_lists("unwrittenlists");
    room.run("links a.ply -o not/there.lists")
        .ends(7, "not/there.lists is not written");
    assert_eq!(room.names(), ["a.lists", "a.ply"]);
}
