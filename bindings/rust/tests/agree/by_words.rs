//! The calls as the archive leaves them: words by their places.
use crate::case::Case;
use crate::lines::Lines;
use dokphalun_sys::{self as archive, IslandLists, Mesh};

/// The words of work that any case needs.
const WORK: usize = 128 * 16;

/// The words of each slot of twelve, by the verdict on it; with another origin than the four the last two are 0.
fn slots(lines: &mut Lines, words: &[u32]) {
    let mut verdicts = vec![9; words.len() / 12];
    assert_eq!(archive::judge(words, &mut verdicts).number, 0);
    for (slot, verdict) in words.chunks_exact(12).zip(verdicts) {
        let more = match slot[10] {
            1..=4 => [slot[10], slot[11]],
            _ => [0; 2],
        };
        let all = slot[1..10].iter().chain(&more);
        match verdict {
            0 => lines.nothing("absent"),
            1 => lines.list("present", all),
            2 => lines.nothing("lost"),
            3 => lines.list("blank", all),
            4 => lines.list("long", all),
            5 => lines.list("short", all),
            _ => lines.nothing("no verdict"),
        }
    }
}

/// The words of each record of ten, and two zeros for those that are not there.
fn old_slots(lines: &mut Lines, words: &[u32]) {
    let wide = words.chunks_exact(10);
    let wide: Vec<u32> = wide.flat_map(|old| [old, &[0; 2]].concat()).collect();
    slots(lines, &wide);
}

/// The mesh of a case.
fn mesh(case: &Case) -> Mesh<'_> {
    Mesh {
        sizes: &case.faces.sizes,
        positions: case.faces.positions.as_flattened(),
        normals: case.faces.normals.as_flattened(),
        texture: case.faces.texture.as_flattened(),
    }
}

/// The parts of the lists that belong to each face, and to one past the last; and of no list.
fn parts(case: &Case, lines: &mut Lines) {
    for face in 0..=case.faces.sizes.len() {
        for list in 0..4 {
            let span = archive::part(mesh(case), list, face);
            lines.said("part", list, span.from, span.count);
        }
    }
}

/// Frames, in one call and by islands.
fn frames(case: &Case, lines: &mut Lines) {
    let (mut answer, mut work) = (vec![0; 4 * 12 * 16], vec![0; WORK]);
    let said = archive::frames(mesh(case), case.threshold, &mut answer, &mut work);
    lines.said(
        "frames",
        said.number,
        said.place as usize,
        said.slots as usize,
    );
    slots(lines, &answer[..12 * said.slots as usize]);
    let own = IslandLists {
        labels: &mut [0; 16],
        order: &mut [0; 4 * 16],
        sizes: &mut [0; 16],
        numbers: &mut [0.0; 32 * 16],
        frames: &mut [0; 48 * 16],
    };
    let by = archive::frames_by_islands(mesh(case), case.threshold, &mut answer, &mut work, own);
    lines.said(
        "by islands",
        by.number,
        by.place as usize,
        by.slots as usize,
    );
    slots(lines, &answer[..12 * by.slots as usize]);
}

/// Frames again, and why slots are absent.
fn reasons(case: &Case, lines: &mut Lines) {
    let (mut answer, mut work, mut why) = (vec![0; 4 * 12 * 16], vec![0; WORK], vec![9; 4 * 16]);
    let said = archive::reasons(mesh(case), case.threshold, &mut answer, &mut work, &mut why);
    let made = said.slots as usize;
    lines.said("reasons", said.number, said.place as usize, made);
    slots(lines, &answer[..12 * made]);
    lines.list("why", &why[..made]);
}

/// The records judged: how many are good, and the first that is not.
fn judged(case: &Case, lines: &mut Lines) {
    let mut verdicts = vec![9; case.records() as usize];
    let said = archive::judge(&case.words, &mut verdicts);
    lines.said("judge", said.number, said.good as usize, said.first);
    lines.list("verdicts", &verdicts);
}

/// The islands.
fn labels(case: &Case, lines: &mut Lines) {
    let (mut labels, mut work) = (vec![0; case.faces.sizes.len()], vec![0; WORK]);
    let said = archive::labels(mesh(case), &mut labels, &mut work);
    lines.said(
        "labels",
        said.number,
        said.place as usize,
        said.islands as usize,
    );
    let known = if said.number == 0 { &labels[..] } else { &[] };
    lines.list("of faces", known);
}

/// Our own links, examined as they are, and with a word of groups, of orientations and of links changed.
fn links(case: &Case, lines: &mut Lines) {
    let [mut links, mut groups, mut sides] = [6, 6, 2].map(|words| vec![0; 16 * words]);
    let mut work = vec![0; WORK];
    let said = archive::links(mesh(case), &mut links, &mut groups, &mut sides, &mut work);
    let sound = said.sound as usize;
    lines.said("links", said.number, said.place as usize, sound);
    links.truncate(3 * sound);
    groups.truncate(3 * sound);
    sides.truncate(sound);
    lines.list("links", &links);
    lines.list("groups", &groups);
    lines.list("orientations", &sides);
    let mut examine = |links: &[u32], groups: &[u32], sides: &[u32]| {
        let found = archive::examine(mesh(case), links, groups, sides, &mut work);
        let (objection, place) = (found.objection as usize, found.place as usize);
        lines.said("examine", found.refusal, objection, place);
    };
    examine(&links, &groups, &sides);
    if sound > 0 {
        groups[case.row % (3 * sound)] += 1;
        examine(&links, &groups, &sides);
        sides[case.row % sound] ^= 1;
        examine(&links, &groups, &sides);
        links[case.row % (3 * sound)] ^= 1;
        examine(&links, &groups, &sides);
    }
}

/// The records to a card and back, and the card read as an old one.
fn cards(case: &Case, lines: &mut Lines) {
    let (mut card, mut back) = (vec![0; 512 * 4], vec![0; case.words.len()]);
    let written = archive::card_write(&case.words, &mut card);
    lines.said("write", written.number, written.bytes, 0);
    lines.list("card", &card[..written.bytes]);
    if written.bytes > 0 {
        card[case.row % written.bytes] ^= 1;
    }
    let cut = &card[..written.bytes.min(case.length)];
    let found = archive::card_read(cut, case.records(), &mut back);
    lines.said("read", found.number, found.past, 0);
    slots(lines, &back);
    let mut back = vec![0; 10 * case.records() as usize];
    let found = archive::old_card_read(cut, case.records(), &mut back);
    lines.said("read as old", found.number, found.past, 0);
    old_slots(lines, &back);
}

/// The records to an old card and back, and the card read as a new one.
fn old_cards(case: &Case, lines: &mut Lines) {
    let words = case.old_words();
    let (mut card, mut back) = (vec![0; 512 * 4], vec![0; words.len()]);
    let written = archive::old_card_write(&words, &mut card);
    lines.said("old write", written.number, written.bytes, 0);
    lines.list("old card", &card[..written.bytes]);
    if written.bytes > 0 {
        card[case.row % written.bytes] ^= 1;
    }
    let cut = &card[..written.bytes.min(case.length)];
    let found = archive::old_card_read(cut, case.records(), &mut back);
    lines.said("old read", found.number, found.past, 0);
    old_slots(lines, &back);
    let mut back = vec![0; case.words.len()];
    let found = archive::card_read(cut, case.records(), &mut back);
    lines.said("read as new", found.number, found.past, 0);
    slots(lines, &back);
}

/// What comes next on a card, and the rest appended.
fn appends(case: &Case, lines: &mut Lines) {
    let (next, mut blocks) = (
        archive::card_next(case.length, case.records()),
        vec![0; 2048],
    );
    let rest = &case.words[(next.at / 512 * 120).min(case.words.len())..];
    let added = archive::card_append(case.length, case.records(), rest, &mut blocks);
    lines.said("next", next.number, next.records as usize, next.at);
    lines.said("append", added.number, added.blocks as usize, added.at);
    lines.list("blocks", &blocks[..512 * added.blocks as usize]);
}

/// What comes next on an old card, and the rest appended.
fn old_appends(case: &Case, lines: &mut Lines) {
    let (words, mut blocks) = (case.old_words(), vec![0; 2048]);
    let next = archive::old_card_next(case.length, case.records());
    let rest = &words[(next.at / 512 * 120).min(words.len())..];
    let added = archive::old_card_append(case.length, case.records(), rest, &mut blocks);
    lines.said("old next", next.number, next.records as usize, next.at);
    lines.said("old append", added.number, added.blocks as usize, added.at);
    lines.list("old blocks", &blocks[..512 * added.blocks as usize]);
}

/// A card with blocks of both kinds, as the kind that finds more: 0 old or 1 new, the bytes past it, and what the other kind finds.
fn either(case: &Case, lines: &mut Lines) {
    let (words, total) = (case.old_words(), case.records());
    let [mut new, mut old] = [0; 2].map(|byte| vec![byte; 2048]);
    let written = archive::card_write(&case.words, &mut new);
    let before = archive::old_card_write(&words, &mut old);
    new.truncate(written.bytes);
    let card = case.mixed(new, &old[..before.bytes]);
    let [mut new, mut old] = [case.words.len(), words.len()].map(|words| vec![0; words]);
    let as_new = archive::card_read(&card, total, &mut new);
    let as_old = archive::old_card_read(&card, total, &mut old);
    let found = |records: &[u32], width| {
        let records = records.chunks_exact(width);
        records.filter(|record| record[0] != 2).count()
    };
    let [by_new, by_old] = [found(&new, 12), found(&old, 10)];
    match by_old > by_new {
        true => {
            lines.said("either", 0, as_old.past, by_new);
            old_slots(lines, &old);
        }
        false => {
            lines.said("either", 1, as_new.past, by_old);
            slots(lines, &new);
        }
    }
}

/// The records of an old card as slots, and packed: the same numbers as of the slots that they were.
fn widened(case: &Case, lines: &mut Lines) {
    let slots = case.widened();
    let mut packed = vec![0; 7 * case.records() as usize];
    lines.list("widened", &slots);
    old_slots(lines, &case.old_words());
    let made = archive::pack(&case.words, &mut packed);
    lines.said("pack widened", made.number, made.count, 0);
    lines.list("packed widened", &packed);
}

/// The records packed and read, and read again with one slot spoilt.
fn packs(case: &Case, lines: &mut Lines) {
    let records = case.records() as usize;
    let (mut packed, mut back) = (vec![0; 7 * records], vec![0; 8 * records]);
    let made = archive::pack(&case.words, &mut packed);
    lines.said("pack", made.number, made.count, 0);
    lines.list("packed", &packed);
    let found = archive::unpack(&packed, &mut back);
    lines.said("unpack", found.number, found.place, 0);
    for slot in back.chunks_exact(8) {
        match slot[0] {
            1 => lines.list("present", &slot[1..]),
            _ => lines.nothing("absent"),
        }
    }
    if records > 0 {
        packed[7 * (case.row % records) + 6] = 0;
    }
    let found = archive::unpack(&packed, &mut back);
    lines.said("unpack", found.number, found.place, 0);
}

/// The lines of a case.
pub fn case(case: &Case, lines: &mut Lines) {
    parts(case, lines);
    frames(case, lines);
    labels(case, lines);
    reasons(case, lines);
    judged(case, lines);
    links(case, lines);
    cards(case, lines);
    appends(case, lines);
    old_cards(case, lines);
    old_appends(case, lines);
    either(case, lines);
    widened(case, lines);
    packs(case, lines);
}
