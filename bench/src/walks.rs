//! The two walks of step 6, the old one and the flat one, on random tables: whatever the columns hold, every word but the flat walk's places, and both counts, are the same.
use dokphalun_sys::exports::{walk_flat, walk_old};
use models::random::Random;

/// A walk on a table of so many rows and triangles.
type Walk = fn(&mut [u32], usize, usize) -> u64;

/// What both answer where a walk may not be called.
const NOT_CALLED: u64 = u64::MAX;

/// The rows of 4,096 faces: the old walk is called on no more.
const OLD_ROWS: usize = 24_576;

/// The columns of crate `table`, by name.
const COLUMNS: usize = 21;
const ORIENTATION: usize = 8;
const ANY: usize = 9;
const VERTEX: usize = 10;
const LINK: usize = 11;
const PLACES: usize = 18;

/// Words behind the columns, which no walk may touch.
const PAST: usize = 5;

/// A table of so many rows, for so many triangles.
struct Table {
    words: Vec<u32>,
    rows: usize,
    triangles: usize,
}

impl Table {
    fn set(&mut self, column: usize, row: usize, word: u32) {
        self.words[column * self.rows + row] = word;
    }

    fn get(&self, column: usize, row: usize) -> u32 {
        self.words[column * self.rows + row]
    }

    /// What a walk returns and leaves of it, the places blanked.
    fn walked(&self, walk: Walk) -> (u64, Vec<u32>) {
        let mut words = self.words.clone();
        let told = walk(&mut words, self.rows, self.triangles);
        words[PLACES * self.rows..(PLACES + 1) * self.rows].fill(0);
        (told, words)
    }
}

/// Any words; orientations and `group_with_any` as flags, vertices of a few values, no links.
fn plain(random: &mut Random, triangles: usize) -> Table {
    let rows = 3 * triangles + random.below(7);
    let words = (0..COLUMNS * rows + PAST).map(|_| random.word()).collect();
    let mut table = Table {
        words,
        rows,
        triangles,
    };
    let vertices = if random.chance(1, 3) {
        1 + random.below(4)
    } else {
        1 + random.below(3 * triangles + 1)
    };
    let one_way = random.chance(1, 4);
    for row in 0..rows {
        let way = if one_way { 1 } else { random.below(2) as u32 };
        table.set(ORIENTATION, row, way);
        table.set(ANY, row, u32::from(random.chance(1, 4)));
        table.set(VERTEX, row, random.below(vertices) as u32);
        table.set(LINK, row, 0);
    }
    table
}

/// Links to any side, mutual or not.
fn link_anyhow(random: &mut Random, table: &mut Table) {
    let sides = 3 * table.triangles;
    for side in 0..sides {
        let word = random.below(sides + 1) as u32;
        table.set(LINK, side, word);
    }
}

/// Mutual links between sides that have none.
fn link_pairs(random: &mut Random, table: &mut Table) {
    let sides = 3 * table.triangles;
    for _ in 0..2 * sides {
        let (a, b) = (random.below(sides), random.below(sides));
        if a != b && table.get(LINK, a) == 0 && table.get(LINK, b) == 0 {
            table.set(LINK, a, b as u32 + 1);
            table.set(LINK, b, a as u32 + 1);
        }
    }
}

/// The ends of linked sides get the same vertices, run opposite ways.
fn join_ends(table: &mut Table) {
    let end = |side: usize| side - side % 3 + (side + 1) % 3;
    for side in 0..3 * table.triangles {
        if let Some(other) = (table.get(LINK, side) as usize).checked_sub(1) {
            let (from, to) = (table.get(VERTEX, side), table.get(VERTEX, other));
            table.set(VERTEX, end(other), from);
            table.set(VERTEX, end(side), to);
        }
    }
}

/// The table number `i`: links of any kind, in pairs, or in pairs with their ends joined.
fn table(random: &mut Random, i: usize) -> Table {
    let triangles = if i.is_multiple_of(1000) {
        300
    } else {
        random.below(40)
    };
    let mut table = plain(random, triangles);
    if triangles > 0 {
        match i % 3 {
            0 => link_anyhow(random, &mut table),
            1 => link_pairs(random, &mut table),
            _ => {
                link_pairs(random, &mut table);
                join_ends(&mut table);
            }
        }
    }
    table
}

/// Both walks on `count` tables; how many differed.
pub fn compare(count: usize) -> u64 {
    let (mut differed, mut groups, mut members) = (0, 0u64, 0u64);
    for i in 0..count {
        let table = table(&mut Random::of(1, "walks", i as u64), i);
        let (old, flat) = (table.walked(walk_old), table.walked(walk_flat));
        if old.0 == NOT_CALLED || old != flat {
            differed += 1;
        }
        groups += old.0 >> 32;
        members += old.0 & 0xFFFF_FFFF;
    }
    println!("walks: {count} tables, {groups} groups of {members} members, {differed} differed");
    differed + beyond()
}

/// Past 4,096 faces only the flat walk is called, and the old one leaves the list as it is: 1 if it is not so.
fn beyond() -> u64 {
    let table = |rows: usize| Table {
        words: vec![1; COLUMNS * rows + PAST],
        rows,
        triangles: 1,
    };
    let (last, past) = (table(OLD_ROWS), table(OLD_ROWS + 1));
    let mut same = past.words.clone();
    same[PLACES * past.rows..(PLACES + 1) * past.rows].fill(0);
    let held = last.walked(walk_old) == last.walked(walk_flat)
        && last.walked(walk_old).0 != NOT_CALLED
        && past.walked(walk_old) == (NOT_CALLED, same)
        && past.walked(walk_flat).0 != NOT_CALLED;
    println!(
        "walks past 4,096 faces: the old one is {}",
        if held {
            "not called"
        } else {
            "CALLED, or the flat one is not"
        }
    );
    u64::from(!held)
}
