//! The smallest meshes of docs/EXAMINER.md: each row of its table is run, and says what the page says.
use dokphalun::{Buffers, List, Lists, Mesh, Objection};
use std::fs;
use std::path::Path;

/// The first line of the table.
const HEAD: &str = "| Objection | Mesh | links | groups | orientations | place |";

/// How many objections there are; the table has a row for each, and one that is accepted.
const OBJECTIONS: usize = 12;

/// Where the page's corners stand.
fn place(name: char) -> [f32; 2] {
    match name {
        'A' => [0.0, 0.0],
        'B' => [1.0, 0.0],
        'C' => [0.0, 1.0],
        'D' => [0.0, -1.0],
        'E' => [-1.0, 0.0],
        _ => panic!("no corner {name}"),
    }
}

/// The places of the corners of a mesh such as `plain ABC, BAD`, three a face.
fn corners(mesh: &str) -> Vec<[f32; 2]> {
    let faces = mesh.strip_prefix("plain ").or(mesh.strip_prefix("blank "));
    let names = faces.unwrap_or_default().replace(", ", "");
    names.chars().map(place).collect()
}

/// Words with blanks between them; a dash for none.
fn words(text: &str) -> Vec<u32> {
    let words = text.split(' ').filter(|word| *word != "-");
    words.map(|word| word.parse().expect("a word")).collect()
}

/// The place of an objection, as the archive counts it.
fn place_of(objection: &Objection) -> usize {
    let list = match objection.list() {
        Some(List::Groups) => 1,
        Some(List::Orientations) => 2,
        _ => 0,
    };
    let side = objection.side().map(|side| side.row);
    let triangle = objection.triangle().map(|triangle| triangle.number);
    side.or(triangle).unwrap_or(list)
}

/// The number and place that a row's lists are given; 0 and 0 where they are accepted.
fn verdict(mesh: &str, [links, groups, orientations]: [&str; 3]) -> (u32, usize) {
    let flat = corners(mesh);
    let position = |&[x, y]: &[f32; 2]| [x, y, 0.0];
    let positions: Vec<[f32; 3]> = flat.iter().map(position).collect();
    let texture = match mesh.starts_with("plain") {
        true => flat.clone(),
        false => vec![[0.0; 2]; flat.len()],
    };
    let handed = Mesh {
        sizes: &vec![3; flat.len() / 3],
        positions: &positions,
        normals: &vec![[0.0, 0.0, 1.0]; flat.len()],
        texture: &texture,
    };
    let lists = Lists {
        links: &words(links),
        groups: &words(groups),
        orientations: &words(orientations),
    };
    match Buffers::new().examine(handed, lists) {
        Ok(()) => (0, 0),
        Err(objection) => (objection.number(), place_of(&objection)),
    }
}

#[test]
fn every_row_of_the_page_says_what_it_says() {
    let page = Path::new(env!("CARGO_MANIFEST_DIR")).join("../../docs/EXAMINER.md");
    let page = fs::read_to_string(page).unwrap();
    let (_, table) = page.split_once(HEAD).expect("no table");
    let rows = table.lines().skip(2).take_while(|line| !line.is_empty());
    let mut numbers = vec![];
    for row in rows {
        let cells: Vec<&str> = row.trim_matches('|').split('|').map(str::trim).collect();
        let [number, mesh, links, groups, orientations, place] = cells[..] else {
            panic!("{row}");
        };
        let number = number.parse().unwrap_or(0);
        let place = place.parse().expect("a place");
        let said = verdict(mesh, [links, groups, orientations]);
        assert_eq!(said, (number, place), "{row}");
        numbers.push(number as usize);
    }
    numbers.sort_unstable();
    assert_eq!(numbers, (0..=OBJECTIONS).collect::<Vec<_>>());
}
