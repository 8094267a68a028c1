//! Lists as a partner might hand them in: our own, other sound ones, random ones; most of them with a word or a few changed.
use crate::examiner::{Lists, chains, numbers};
use crate::mesh::Mesh;
use crate::plain_steps::{Model, end, model};
use crate::random::Random;
use crate::refusals::without_frames;

/// A change of lists for a mesh.
type Change = fn(&mut Random, &Model, &mut Lists);

/// The changes, each as often as its share says: which objection they mostly bring about.
const CHANGES: [(usize, Change); 18] = [
    (2, another_length),    // 1
    (2, past_the_end),      // 2
    (3, to_any_side),       // 3
    (3, unlink_one),        // 4
    (1, to_another_side),   // 4
    (4, unlink_both),       // 5
    (2, no_orientation),    // 6
    (3, turn),              // 7
    (4, turn_any),          // 10, 11 or none
    (2, ungroup),           // 8
    (3, ungroup_any),       // 12 or none
    (2, group_with_anyone), // 9
    (6, group_at_corner),   // 10, 11, 12
    (8, merge_at_corner),   // 10, 12
    (3, split_one),         // 11
    (4, split_group),       // 11, 12
    (2, rename),            // none
    (5, pair_again),        // none, 11, 12
];

/// Lists for a mesh.
pub fn lists(r: &mut Random, mesh: &Mesh) -> Lists {
    if without_frames(mesh).is_some() {
        let rows = r.below(30);
        return random(r, rows);
    }
    let m = model(&mesh.sizes, &numbers(mesh));
    let mut lists = match r.below(20) {
        0 => random(r, m.sound),
        1..=4 => another(r, &m),
        _ => Lists::of(&m),
    };
    if m.sound == 0 {
        if r.chance(1, 8) {
            another_length(r, &m, &mut lists);
        }
        return lists;
    }
    for _ in 0..r.pick(&[0, 1, 1, 1, 1, 1, 1, 2, 2, 3]) {
        change(r, &m, &mut lists);
    }
    lists
}

/// How often a change is tried that changes nothing of the lists at hand.
const TRIES: usize = 8;

/// Makes one change. Where there is nothing to change in its way, another way is tried.
fn change(r: &mut Random, m: &Model, lists: &mut Lists) {
    let before = lists.clone();
    for _ in 0..TRIES {
        // a list that was cut is left as it is
        if lists.lengths() != [3 * m.sound, 3 * m.sound, m.sound] || *lists != before {
            break;
        }
        way(r)(r, m, lists);
    }
}

/// One of the ways to change lists.
fn way(r: &mut Random) -> Change {
    let mut share = r.below(CHANGES.iter().map(|(share, _)| share).sum());
    let passed = |(wide, _): &&(usize, Change)| match share < *wide {
        true => true,
        false => {
            share -= wide;
            false
        }
    };
    CHANGES.iter().find(passed).expect("a share").1
}

/// Wholly random lists for so many triangles.
fn random(r: &mut Random, sound: usize) -> Lists {
    let (rows, numbers) = (3 * sound, r.from_to(1, 3 * sound + 1));
    let unlinked = r.chance(1, 2);
    let link = |r: &mut Random| {
        if unlinked {
            0
        } else {
            r.below(rows + 2) as u32
        }
    };
    Lists {
        links: (0..rows).map(|_| link(r)).collect(),
        groups: (0..rows).map(|_| r.below(numbers) as u32).collect(),
        orientations: (0..sound).map(|_| r.below(2) as u32).collect(),
    }
}

/// Lists that are sound and mostly not ours: sides paired in any order, any orientation and any part for triangles that are `group_with_any`.
fn another(r: &mut Random, m: &Model) -> Lists {
    let links = paired(r, m);
    let way = |r: &mut Random, t: usize| match m.triangles[t].any {
        true => r.chance(1, 2),
        false => m.triangles[t].orientation,
    };
    let ways: Vec<bool> = (0..m.sound).map(|t| way(r, t)).collect();
    let within: Vec<bool> = (0..3 * m.sound)
        .map(|row| !m.triangles[row / 3].any || r.chance(2, 3))
        .collect();
    let lowest = chains(&links, |x, y| {
        within[x] && within[y] && ways[x / 3] == ways[y / 3]
    });
    let first = r.pick(&[1, 1, 0x7FFF_0000, 0xFFF0_0000]);
    let group = |row: usize| {
        if within[row] {
            first + lowest[row] as u32
        } else {
            0
        }
    };
    Lists {
        groups: (0..3 * m.sound).map(group).collect(),
        links,
        orientations: ways.into_iter().map(u32::from).collect(),
    }
}

/// Sides paired as they come, in a random order, until no two are left over.
fn paired(r: &mut Random, m: &Model) -> Vec<u32> {
    let mut rows: Vec<usize> = (0..3 * m.sound).collect();
    r.shuffle(&mut rows);
    let mut links = vec![0; rows.len()];
    for (i, &row) in rows.iter().enumerate() {
        let later = &rows[i + 1..];
        let free = |&&q: &&usize| links[q] == 0 && opposite(m, row, q);
        if let (0, Some(&q)) = (links[row], later.iter().find(free)) {
            links[row] = q as u32 + 1;
            links[q] = row as u32 + 1;
        }
    }
    links
}

/// Whether two sides have the same two welded ends, run opposite ways.
fn opposite(m: &Model, r: usize, q: usize) -> bool {
    m.vertices[r] == m.vertices[end(q)] && m.vertices[end(r)] == m.vertices[q]
}

/// One of the rows below `rows` of which something is true, if there is one.
fn some(r: &mut Random, rows: usize, is: impl Fn(usize) -> bool) -> Option<usize> {
    let rows: Vec<usize> = (0..rows).filter(|&row| is(row)).collect();
    (!rows.is_empty()).then(|| r.pick(&rows))
}

/// Any row.
fn any_row(r: &mut Random, m: &Model) -> usize {
    r.below(3 * m.sound)
}

/// A number that no group has.
fn unused(r: &mut Random, lists: &Lists) -> u32 {
    let taken = |number: &u32| *number == 0 || lists.groups.contains(number);
    let least = 1 + r.below(lists.groups.len()) as u32;
    let mut numbers = if r.chance(1, 4) {
        r.word()..=u32::MAX
    } else {
        least..=u32::MAX
    };
    numbers.find(|number| !taken(number)).unwrap_or(u32::MAX)
}

/// A list loses its last word or gets one more.
fn another_length(r: &mut Random, _: &Model, lists: &mut Lists) {
    let Lists {
        links,
        groups,
        orientations,
    } = lists;
    let list = match r.below(3) {
        0 => links,
        1 => groups,
        _ => orientations,
    };
    match r.chance(1, 2) {
        true => list.truncate(list.len().saturating_sub(1)),
        false => list.push(r.below(2) as u32),
    }
}

/// A link to a row that is not there.
fn past_the_end(r: &mut Random, m: &Model, lists: &mut Lists) {
    let over = r.pick(&[1, 1, 2, 77]);
    let word = if r.chance(1, 5) {
        u32::MAX
    } else {
        3 * m.sound as u32 + over
    };
    lists.links[any_row(r, m)] = word;
}

/// A link to any side.
fn to_any_side(r: &mut Random, m: &Model, lists: &mut Lists) {
    lists.links[any_row(r, m)] = 1 + any_row(r, m) as u32;
}

/// A linked side loses its link.
fn unlink_one(r: &mut Random, m: &Model, lists: &mut Lists) {
    if let Some(row) = some(r, 3 * m.sound, |row| lists.links[row] != 0) {
        lists.links[row] = 0;
    }
}

/// A side is linked to another one with the same ends than before.
fn to_another_side(r: &mut Random, m: &Model, lists: &mut Lists) {
    let row = any_row(r, m);
    let other = |q: usize| lists.links[row] != q as u32 + 1 && opposite(m, row, q);
    if let Some(q) = some(r, 3 * m.sound, other) {
        lists.links[row] = q as u32 + 1;
    }
}

/// Both sides of a link lose it.
fn unlink_both(r: &mut Random, m: &Model, lists: &mut Lists) {
    let rows = 3 * m.sound;
    let linked = |row: usize| (1..=rows as u32).contains(&lists.links[row]);
    if let Some(row) = some(r, rows, linked) {
        let q = lists.links[row] as usize - 1;
        lists.links[row] = 0;
        lists.links[q] = 0;
    }
}

/// An orientation that is none.
fn no_orientation(r: &mut Random, m: &Model, lists: &mut Lists) {
    lists.orientations[r.below(m.sound)] = r.pick(&[2, 2, 3, u32::MAX]);
}

/// A triangle's orientation is turned.
fn turn(r: &mut Random, m: &Model, lists: &mut Lists) {
    lists.orientations[r.below(m.sound)] ^= 1;
}

/// The orientation of a triangle that is `group_with_any` is turned.
fn turn_any(r: &mut Random, m: &Model, lists: &mut Lists) {
    if let Some(t) = some(r, m.sound, |t| m.triangles[t].any) {
        lists.orientations[t] ^= 1;
    }
}

/// A corner leaves its group.
fn ungroup(r: &mut Random, m: &Model, lists: &mut Lists) {
    lists.groups[any_row(r, m)] = 0;
}

/// A corner of a triangle that is `group_with_any` leaves its group.
fn ungroup_any(r: &mut Random, m: &Model, lists: &mut Lists) {
    let grouped = |row: usize| m.triangles[row / 3].any && lists.groups[row] != 0;
    if let Some(row) = some(r, 3 * m.sound, grouped) {
        lists.groups[row] = 0;
    }
}

/// A corner goes to any other's group.
fn group_with_anyone(r: &mut Random, m: &Model, lists: &mut Lists) {
    lists.groups[any_row(r, m)] = lists.groups[any_row(r, m)];
}

/// Two corners that are welded and not in one group; the second is in one.
fn apart(r: &mut Random, m: &Model, lists: &Lists) -> Option<[usize; 2]> {
    let groups = &lists.groups;
    let other = |a: usize, b: usize| {
        m.vertices[a] == m.vertices[b] && groups[b] != 0 && groups[a] != groups[b]
    };
    let rows = 3 * m.sound;
    let a = some(r, rows, |a| (0..rows).any(|b| other(a, b)))?;
    let b = some(r, rows, |b| other(a, b))?;
    Some([a, b])
}

/// A corner goes to another group of the same welded corner.
fn group_at_corner(r: &mut Random, m: &Model, lists: &mut Lists) {
    if let Some([a, b]) = apart(r, m, lists) {
        lists.groups[a] = lists.groups[b];
    }
}

/// All of a group get another number.
fn renumber(lists: &mut Lists, from: u32, to: u32) {
    let of = lists.groups.iter_mut().filter(|group| **group == from);
    of.for_each(|group| *group = to);
}

/// Two groups of the same welded corner become one.
fn merge_at_corner(r: &mut Random, m: &Model, lists: &mut Lists) {
    if let Some([a, b]) = apart(r, m, lists) {
        let (from, to) = (lists.groups[a], lists.groups[b]);
        match from {
            0 => lists.groups[a] = to,
            _ => renumber(lists, from, to),
        }
    }
}

/// A corner gets a group of its own.
fn split_one(r: &mut Random, m: &Model, lists: &mut Lists) {
    lists.groups[any_row(r, m)] = unused(r, lists);
}

/// A group is split in two: some of its members get another number.
fn split_group(r: &mut Random, m: &Model, lists: &mut Lists) {
    let (group, number) = (lists.groups[any_row(r, m)], unused(r, lists));
    let members = lists.groups.iter_mut().filter(|g| **g == group && **g != 0);
    members.for_each(|member| {
        if r.chance(1, 2) {
            *member = number;
        }
    });
}

/// A group gets another number: nothing is wrong with that.
fn rename(r: &mut Random, m: &Model, lists: &mut Lists) {
    let (group, number) = (lists.groups[any_row(r, m)], unused(r, lists));
    if group != 0 {
        renumber(lists, group, number);
    }
}

/// Two links between sides of the same ends exchange one side, or a link takes a side that is free.
fn pair_again(r: &mut Random, m: &Model, lists: &mut Lists) {
    let rows = 3 * m.sound;
    let row = any_row(r, m);
    let other = |q: usize| lists.links[row] != q as u32 + 1 && opposite(m, row, q);
    let whole = lists.links.iter().all(|link| *link as usize <= rows);
    let (true, Some(q)) = (whole, some(r, rows, other)) else {
        return;
    };
    let (mine, its) = (lists.links[row], lists.links[q]);
    lists.links[row] = q as u32 + 1;
    lists.links[q] = row as u32 + 1;
    if mine != 0 {
        lists.links[mine as usize - 1] = its;
    }
    if its != 0 {
        lists.links[its as usize - 1] = mine;
    }
}
