//! The archive's verdict and its reasons, as the command's user sees them: exit status, printed lines, report and picture.
#[allow(dead_code, reason = "not every test needs all of it")]
mod room;

use command::state::{BAD, FLAWED, State, Tally};
use command::stop::Status;
use dokphalun::{Kind, write_card, write_card_as};
use room::Room;

/// A PLY file of these vertices, each with position, normal and texture, and faces.
fn ply(vertices: &[&str], faces: &[&str]) -> String {
    let names = ["x", "y", "z", "nx", "ny", "nz", "s", "t"];
    let properties = names.map(|name| format!("property float {name}\n"));
    let rows: Vec<&str> = vertices.iter().chain(faces).copied().collect();
    format!(
        "ply\nformat ascii 1.0\nelement vertex {}\n{}element face {}\nproperty list uchar int vertex_indices\nend_header\n{}\n",
        vertices.len(),
        properties.concat(),
        faces.len(),
        rows.join("\n")
    )
}

/// The readings of a report, slot by slot.
fn readings(report: &str) -> Vec<String> {
    let rows = report.lines().skip(1);
    rows.map(|row| row.split(',').nth(3).expect("a reading").to_string())
        .collect()
}

/// What is said of faces whose corners stand on a line, after what they lack.
const ON_A_LINE: &str = "likely cause: its corners stand on a line (line 18 of the mesh)";

/// What is said of good corners whose two directions are one.
const ONE_WAY: &str = "good, and tangent and bi-tangent run one way; ";

// of this line along an axis the angles at the two ends come out as zero and weigh nothing; of others they need not
#[test]
fn the_ends_of_a_line_whose_angles_are_zero_are_not_good() {
    let room = Room::new("on_a_line");
    let vertices = ["0 0 0 0 0 1 0 0", "1 0 0 0 0 1 1 0", "2 0 0 0 0 1 0 1"];
    room.put("a.ply", ply(&vertices, &["3 0 1 2"]));
    let line = "frames a.ply -o a.card --report a.csv --picture a.svg --threshold -1";
    let ran = room.run(line);
    ran.ends(3, "NO DIRECTION  2\n");
    let zero = format!("NO DIRECTION  face 0, corner 0 2: a direction is zero; {ON_A_LINE}");
    ran.ends(3, &zero);
    ran.ends(
        3,
        &format!("LOOK AT       face 0, corner 1: {ONE_WAY}{ON_A_LINE}"),
    );
    ran.ends(
        3,
        "NOT GOOD      2 NO DIRECTION; 1 of 3 slots present. An absent reading is not a good reading.",
    );
    assert!(!ran.said.contains("are good"), "{}", ran.said);
    let report = room.text("a.csv");
    let wanted = ["NO DIRECTION", "present", "NO DIRECTION"];
    assert_eq!(readings(&report), wanted);
    // a frame of zeros is not shown as zeros
    assert!(report.contains("\n0,0,0,NO DIRECTION,,,,,,,,,,,,\n"));
    assert!(report.contains("\n0,1,1,present,1,0,0,1,0,0,1,2,1,single,1,\n"));
    let picture = room.text("a.svg");
    assert!(picture.contains(">NO DIRECTION (2)<"), "{picture}");
    assert!(!picture.contains("Each slot has"), "{picture}");
    room.run("read a.card --total 3 --mesh a.ply")
        .ends(3, &zero);
    room.run("read a.card --total 3")
        .ends(3, "NO DIRECTION  records 0, 2 (counted from 0;");
}

/// How many marks of frames whose directions are one a picture has, its legend's left out.
fn marked(picture: &str) -> usize {
    let amber = picture.split("<path fill=\"#f59e0b\"").skip(1);
    let paths = amber.map(|path| path.split("/>").next().unwrap());
    let marks = paths.map(|path| path.matches('M').count()).sum::<usize>();
    marks.saturating_sub(1)
}

// good says that both directions count, and not that they differ: of these lines no angle is rounded to zero
#[test]
fn three_corners_on_other_lines_are_good_and_are_to_be_looked_at() {
    let lines = [
        ["0 0 0 0 0 1 0 0", "1 2 0 0 0 1 1 0", "3 6 0 0 0 1 0 1"],
        ["0 0 0 0 0 1 0 0", "41 0 0 0 0 1 1 0", "82 0 0 0 0 1 0 1"],
    ];
    for vertices in lines {
        looked_at(&vertices);
    }
}

/// Runs the command on a triangle that is good and has no area, and then on one that has.
fn looked_at(vertices: &[&str]) {
    let room = Room::new("looked_at");
    room.put("a.ply", ply(vertices, &["3 0 1 2"]));
    let ran = room.run("frames a.ply -o a.card --report a.csv --picture a.svg");
    ran.ends(0, "verdict       all 3 slots are good (exit status 0)");
    let look = format!("LOOK AT       face 0, corner 0 1 2: {ONE_WAY}{ON_A_LINE}");
    ran.ends(0, &look);
    ran.ends(0, "(faces and corners are counted from 0)");
    assert_eq!(readings(&room.text("a.csv")), ["present"; 3]);
    let picture = room.text("a.svg");
    // no stroke can be drawn, and each is marked
    assert_eq!((strokes(&picture), marked(&picture)), (0, 3), "{picture}");
    let legend = ">both directions are one: look at the face (3)<";
    assert!(picture.contains(legend), "{picture}");
    assert!(picture.contains("That they differ, or that a face has area, is not said"));
    room.run("read a.card --total 3 --mesh a.ply")
        .ends(0, &look);
    // a face with area has none of it
    room.put("b.ply", sample());
    let ran = room.run("frames b.ply -o b.card --picture b.svg");
    assert!(!ran.said.contains("LOOK AT"), "{}", ran.said);
    let picture = room.text("b.svg");
    assert_eq!((strokes(&picture), marked(&picture)), (3, 0), "{picture}");
    assert!(!picture.contains("look at the face"), "{picture}");
}

// of these two directions one lies where the other does, though the face has area
#[test]
fn a_normal_in_the_plane_of_the_face_is_to_be_looked_at() {
    let room = Room::new("in_the_plane");
    let vertices = [
        "0 0 0 .6 .8 0 0 0",
        "1 0 0 .6 .8 0 1 0",
        "0 1 0 .6 .8 0 0 1",
    ];
    room.put("a.ply", ply(&vertices, &["3 0 1 2"]));
    let ran = room.run("frames a.ply -o a.card --picture a.svg");
    let why = "likely cause: its normal lies in the plane of the face, ";
    ran.ends(
        3,
        &format!("LOOK AT       face 0, corner 0: {ONE_WAY}{why}"),
    );
    let picture = room.text("a.svg");
    assert_eq!((strokes(&picture), marked(&picture)), (1, 1), "{picture}");
}

#[test]
fn a_normal_along_the_tangent_is_not_good() {
    let room = Room::new("along");
    let vertices = ["0 0 0 1 0 0 0 0", "1 0 0 1 0 0 1 0", "0 1 0 1 0 0 0 1"];
    room.put("a.ply", ply(&vertices, &["3 0 1 2"]));
    let ran = room.run("frames a.ply -o a.card --report a.csv --picture a.svg");
    ran.ends(3, "present       0\n");
    ran.ends(
        3,
        "NO DIRECTION  face 0, corner 0 1 2: a direction is zero; likely cause: a normal lies along it, or ",
    );
    ran.ends(3, "3 NO DIRECTION; 0 of 3 slots present");
    assert_eq!(readings(&room.text("a.csv")), ["NO DIRECTION"; 3]);
    // a frame of no use has no stroke
    assert_eq!(strokes(&room.text("a.svg")), 0);
    room.run("read a.card --total 3")
        .ends(3, "3 NO DIRECTION; 0 of 3 slots present");
}

/// The words of the three reasons.
const UNWELDED: &str =
    "it is a corner of a degenerate triangle and no sound corner is welded to it";
const COPIES_ABSENT: &str = "it copies a corner that is absent itself";
const UNREACHED: &str = "all its triangles are group_with_any and no group reached it";

/// Runs the command on a mesh, and sees each of these lines of absent corners, and each of these reasons in the report by its slot.
fn absent(name: &str, mesh: String, lines: &[&str], reasons: &[&str]) {
    let room = Room::new(name);
    room.put("a.ply", mesh);
    let total = reasons.len();
    let ran = room.run("frames a.ply -o a.card --report a.csv");
    let again = room.run(&format!(
        "read a.card --total {total} --mesh a.ply --report b.csv"
    ));
    for line in lines {
        ran.ends(3, &format!("ABSENT        {line} of the mesh)\n"));
        again.ends(3, &format!("ABSENT        {line} of the mesh)\n"));
    }
    let count = ran.said.matches("\nABSENT        face").count();
    assert_eq!(count, lines.len(), "{}", ran.said);
    let report = room.text("a.csv");
    assert_eq!(room.text("b.csv"), report);
    let rows: Vec<&str> = report.lines().skip(1).collect();
    assert_eq!(rows.len(), total);
    for (row, reason) in rows.iter().zip(reasons) {
        assert_eq!(row.split(',').nth(15), Some(*reason), "{row}");
        assert_eq!(row.contains(",ABSENT,"), !reason.is_empty(), "{row}");
    }
}

#[test]
fn a_degenerate_triangle_that_nothing_is_welded_to() {
    let vertices = [
        "0 0 0 0 0 1 0 0",
        "1 0 0 0 0 1 1 0",
        "0 1 0 0 0 1 0 1",
        "0 0 0 0 0 1 .25 .25",
    ];
    // of the second face two corners copy those of the first
    let mesh = ply(&vertices, &["3 0 1 2", "3 0 3 1"]);
    let line = format!(
        "face 1, corner 1: {UNWELDED}; likely cause: two of its corners stand at one place (line 20"
    );
    absent("unwelded", mesh, &[&line], &["", "", "", "", UNWELDED, ""]);
}

#[test]
fn a_copy_of_what_is_absent() {
    let vertices = [
        "0 0 0 0 0 1 .5 .5",
        "1 0 0 0 0 1 .5 .5",
        "0 1 0 0 0 1 .5 .5",
    ];
    let mesh = ply(&vertices, &["3 0 1 2", "3 0 1 1"]);
    let lines = [
        format!(
            "face 0, corner 0 1 2: {UNREACHED}; likely cause: its texture coordinates enclose no area (line 18"
        ),
        format!(
            "face 1, corner 0 1 2: {COPIES_ABSENT}; likely cause: two of its corners stand at one place (line 19"
        ),
    ];
    let reasons = [[UNREACHED; 3], [COPIES_ABSENT; 3]].concat();
    absent("copies", mesh, &[&lines[0], &lines[1]], &reasons);
}

#[test]
fn two_reasons_in_one_face_are_two_lines() {
    // a quad of which one triangle is degenerate, and the other has no texture: corner 3 is where corner 2 is
    let vertices = [
        "0 0 0 0 0 1 .5 .5",
        "1 0 0 0 0 1 .5 .5",
        "0 1 0 0 0 1 .5 .5",
    ];
    let mesh = ply(&vertices, &["4 0 1 2 2"]);
    let room = Room::new("two_reasons");
    room.put("a.ply", &mesh);
    let ran = room.run("frames a.ply -o a.card");
    let own: Vec<&str> = ran
        .said
        .lines()
        .filter(|line| line.contains("ABSENT        face 0"))
        .collect();
    assert_eq!(own.len(), 2, "{}", ran.said);
    let both = [UNREACHED, COPIES_ABSENT];
    let of = |reason| own.iter().filter(|line| line.contains(reason)).count();
    assert_eq!(both.map(of), [1, 1], "{}", ran.said);
}

#[test]
fn a_triangle_that_no_group_reached() {
    let vertices = [
        "0 0 0 0 0 1 .5 .5",
        "1 0 0 0 0 1 .5 .5",
        "0 1 0 0 0 1 .5 .5",
    ];
    let mesh = ply(&vertices, &["3 0 1 2"]);
    let line = format!(
        "face 0, corner 0 1 2: {UNREACHED}; likely cause: its texture coordinates enclose no area (line 18"
    );
    absent("unreached", mesh, &[&line], &[UNREACHED; 3]);
}

#[test]
fn a_line_on_which_a_direction_cancels_out_is_absent() {
    // the second texture coordinate grows as the corners go on, so that nothing is left for the first
    let vertices = ["0 0 0 0 0 1 0 0", "1 0 0 0 0 1 1 1", "2 0 0 0 0 1 0 2"];
    let line = format!(
        "face 0, corner 0 1 2: {UNREACHED}; likely cause: its corners stand on a line (line 18"
    );
    let mesh = ply(&vertices, &["3 0 1 2"]);
    absent("cancels", mesh, &[&line], &[UNREACHED; 3]);
}

/// The bits of 1, of a NaN, and of the next numbers that are too long and too short.
const ONE: u32 = 0x3f80_0000;
const NAN: u32 = 0x7fc0_0000;
const LONG: u32 = 0x3f80_0009;
const SHORT: u32 = 0x3780_0100;

/// A record with this tangent x, and this orientation and origin.
fn record(x: u32, orientation: u32, origin: u32) -> [u32; 12] {
    [1, x, 0, 0, 0, ONE, 0, ONE, ONE, orientation, origin, 1]
}

/// A mesh of a triangle.
fn sample() -> String {
    let vertices = ["0 0 0 0 0 1 0 0", "1 0 0 0 0 1 1 0", "0 1 0 0 0 1 0 1"];
    ply(&vertices, &["3 0 1 2"])
}

/// Puts a.ply and a card of three records into a room, of which the second is this one.
fn with_second(room: &Room, kind: Kind, second: [u32; 12]) {
    let records = [record(ONE, 1, 1), second, record(ONE, 1, 1)];
    let records = records.map(|record| record[..kind.record_words()].to_vec());
    let mut card = Vec::new();
    write_card_as(kind, &records.concat(), &mut card).unwrap();
    room.put("a.ply", sample());
    room.put("a.card", card);
}

#[test]
fn a_card_s_frame_of_no_use_is_loud_and_never_good() {
    let room = Room::new("of_no_use");
    let cases = [
        (LONG, "TOO LONG", "a number of a direction is above 1, "),
        (SHORT, "TOO SHORT", "a direction is next to nothing, "),
        (0, "NO DIRECTION", "a direction is zero; "),
        // above zero, and counts as zero
        (0x0080_0000, "NO DIRECTION", "a direction is zero; "),
        (NAN, "NO DIRECTION", "a direction is no finite number; "),
    ];
    for kind in [Kind::Old, Kind::New] {
        for (x, word, why) in cases {
            with_second(&room, kind, record(x, 1, 1));
            let ran = room.run("read a.card --total 3");
            ran.ends(3, "present       2\n");
            ran.ends(3, &format!("{word:<13} 1\n"));
            ran.ends(3, &format!("{word:<13} records 1 (counted from 0;"));
            ran.ends(
                3,
                &format!("NOT GOOD      1 {word}; 2 of 3 slots present. "),
            );
            let line = "read a.card --total 3 --mesh a.ply --report a.csv --picture a.svg";
            let ran = room.run(line);
            ran.ends(3, &format!("{word:<13} face 0, corner 1: {why}"));
            // what is guessed is said as a guess, and no new card is of an older edition
            ran.ends(3, "; likely cause: ");
            let older = x == NAN && kind == Kind::Old;
            let told = "likely cause: the card is of an older edition";
            assert_eq!(ran.said.contains(told), older, "{}", ran.said);
            assert_eq!(ran.said.contains("older edition"), older, "{}", ran.said);
            let report = room.text("a.csv");
            assert_eq!(readings(&report), ["present", word, "present"]);
            // no number of it is shown
            let row = format!("\n0,1,1,{word},,,,,,,,,,,,\n");
            assert!(report.contains(&row), "{report}");
            let picture = room.text("a.svg");
            assert!(picture.contains(&format!(">{word} (1)<")), "{picture}");
            let title = format!("<title>{word}: 1 of the corners of face 0</title>");
            assert!(picture.contains(&title), "{picture}");
            assert_eq!(strokes(&picture), 2, "{picture}");
        }
        with_second(&room, kind, record(ONE, 0, 1));
        room.run("read a.card --total 3")
            .ends(0, "all 3 slots are good (exit status 0)");
    }
}

/// How many strokes a picture has: each starts with a dot.
fn strokes(picture: &str) -> usize {
    let fields = picture.split("<path fill=\"none\" stroke=").skip(1);
    let dots = fields.map(|path| path.split("/>").next().unwrap().matches("h0").count());
    dots.sum()
}

#[test]
fn a_frame_that_no_answer_has_is_worse_than_one_of_no_use() {
    let room = Room::new("worse");
    for x in [ONE, LONG, SHORT, 0] {
        with_second(&room, Kind::New, record(x, 1, 0));
        let ran = room.run("read a.card --total 3 --mesh a.ply --report a.csv");
        ran.ends(6, "NOT GOOD      1 NO ORIGIN; 2 of 3 slots present");
        let row = "\n0,1,1,NO ORIGIN,,,,,,,,,,,,\n";
        assert!(room.text("a.csv").contains(row));
    }
}

#[test]
fn an_orientation_that_no_answer_has_is_worse_on_a_new_card() {
    let room = Room::new("orientation");
    let line = "read a.card --total 3 --mesh a.ply --report a.csv --picture a.svg";
    with_second(&room, Kind::New, record(ONE, 2, 1));
    let ran = room.run(line);
    ran.ends(6, "NO ORIENTATION 1\n");
    let why = "the card's word for its orientation is none that an answer has: ";
    ran.ends(6, &format!("NO ORIENTATION face 0, corner 1: {why}"));
    ran.ends(6, "write the card again from the mesh");
    ran.ends(6, "NOT GOOD      1 NO ORIENTATION; 2 of 3 slots present");
    let row = "\n0,1,1,NO ORIENTATION,,,,,,,,,,,,\n";
    assert!(room.text("a.csv").contains(row));
    assert!(room.text("a.svg").contains(">NO ORIENTATION (1)<"));
    room.run("read a.card --total 3")
        .ends(6, "NO ORIENTATION records 1 (counted from 0;");
    // on an old card it is what the archive says
    with_second(&room, Kind::Old, record(ONE, 2, 1));
    let ran = room.run(line);
    let why = "the word for its orientation is neither 0 nor 1; likely cause: ";
    ran.ends(3, &format!("NO DIRECTION  face 0, corner 1: {why}"));
    assert!(!ran.said.contains("ORIENTATION"), "{}", ran.said);
}

#[test]
fn a_picture_of_a_card_with_torn_bytes_is_not_good() {
    let room = Room::new("torn_picture");
    with_second(&room, Kind::New, record(ONE, 1, 1));
    let line = "read a.card --total 3 --mesh a.ply --picture a.svg";
    room.run(line).ends(0, "all 3 slots are good");
    assert!(room.text("a.svg").contains(">all 3 slots are good<"));
    let torn = [room.bytes("a.card"), vec![7]].concat();
    room.put("a.card", torn);
    room.run(line)
        .ends(6, "NOT GOOD      1 byte TORN; 3 of 3 slots present.");
    let picture = room.text("a.svg");
    assert!(picture.contains(">1 byte TORN; 3 of 3 slots present<"));
    assert!(!picture.contains("are good"), "{picture}");
}

#[test]
fn a_card_that_is_absent_where_its_mesh_is_not() {
    let room = Room::new("another_mesh");
    let mut card = Vec::new();
    write_card(
        &[[0; 12], record(ONE, 1, 1), record(ONE, 1, 1)].concat(),
        &mut card,
    )
    .unwrap();
    room.put("a.card", card);
    room.put("a.ply", sample());
    let line = "read a.card --total 3 --mesh a.ply --report a.csv";
    room.run(line).ends(
        3,
        "ABSENT        face 0, corner 0: this mesh has a frame there: is the card of another one? (line 18 of the mesh)",
    );
    assert!(room.text("a.csv").contains("\n0,0,0,ABSENT,,,,,,,,,,,,\n"));
    // a mesh that is refused gives no reason, and the hint stays
    room.put(
        "a.ply",
        sample().replace("1 0 0 0 0 1 1 0", "1 0 0 0 0 0 1 0"),
    );
    room.run(line)
        .ends(3, "ABSENT        face 0, corner 0: likely cause: ");
}

#[test]
fn a_reason_stands_in_the_row_of_an_absent_corner_alone() {
    let room = Room::new("alone");
    let good = record(ONE, 1, 1);
    let mut card = Vec::new();
    write_card(&[[0; 12], good, good].concat(), &mut card).unwrap();
    room.put("a.card", card);
    // each corner of the mesh is absent
    let vertices = [
        "0 0 0 0 0 1 .5 .5",
        "1 0 0 0 0 1 .5 .5",
        "0 1 0 0 0 1 .5 .5",
    ];
    room.put("a.ply", ply(&vertices, &["3 0 1 2"]));
    room.run("read a.card --total 3 --mesh a.ply --report a.csv")
        .ends(
            3,
            &format!("ABSENT        face 0, corner 0: {UNREACHED}; likely"),
        );
    let report = room.text("a.csv");
    let reasons = report.lines().skip(1).map(|row| row.split(',').nth(15));
    assert_eq!(reasons.collect::<Vec<_>>(), [UNREACHED, "", ""].map(Some));
}

#[test]
fn the_exit_status_goes_by_the_archive_s_count() {
    let all = Tally {
        present: 3,
        all_good: true,
        ..Tally::default()
    };
    assert_eq!(all.status(0), Status::Good);
    assert_eq!(Tally { torn: 1, ..all }.status(0), Status::Lost);
    assert_eq!(all.status(1), Status::Absent);
    assert_eq!(Tally::default().status(0), Status::Absent);
    // whatever the states say
    let all_good = false;
    assert_eq!(Tally { all_good, ..all }.status(0), Status::Absent);
    let worse = Tally {
        no_origin: 1,
        present: 2,
        ..all
    };
    assert_eq!((worse.all(), worse.status(0)), (3, Status::Lost));
    for state in FLAWED {
        assert!(BAD.contains(&state) && state.word() == state.word().to_uppercase());
    }
    assert_eq!(State::Present.word(), "present");
}
