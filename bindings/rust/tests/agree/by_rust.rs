//! The calls as Rust's types have them, on buffers that are kept from case to case.
use crate::case::Case;
use crate::lines::Lines;
use dokphalun::{
    Answer, Buffers, Card, CardRefusal, Flawed, Frame, Kind, List, Lists, Next, Objection, Origin,
    Packed, Reading, Reason, Record, Refusal, append_blocks, append_blocks_as, next_block,
    next_block_as, pack, unpack, write_card, write_card_as,
};
use std::error::Error;

/// A frame, field by field.
fn frame(lines: &mut Lines, frame: Frame) {
    let numbers = [frame.tangent, frame.bitangent].concat();
    let magnitudes = [frame.mag_s, frame.mag_t];
    let bits = numbers.into_iter().chain(magnitudes).map(f32::to_bits);
    let [origin, behind] = told(frame.origin, frame.behind);
    let more = [u32::from(frame.preserving), origin, behind];
    lines.list("present", bits.chain(more));
}

/// A frame that is of no use, field by field.
fn flawed(lines: &mut Lines, name: &str, flawed: Flawed) {
    let more = told(flawed.origin(), flawed.behind());
    lines.list(name, flawed.bits().iter().chain(&more));
}

/// The number of an origin, and how many triangles stand behind it.
fn told(origin: Origin, behind: Option<u32>) -> [u32; 2] {
    let origin = match origin {
        Origin::NotRecorded => 0,
        Origin::Single => 1,
        Origin::Combined => 2,
        Origin::Copied => 3,
        Origin::Filled => 4,
    };
    [origin, behind.unwrap_or(0)]
}

/// What a record holds.
fn record(lines: &mut Lines, record: Record) {
    match record {
        Record::Absent => lines.nothing("absent"),
        Record::Lost => lines.nothing("lost"),
        Record::Present(known) => frame(lines, known),
        Record::Blank(known) => flawed(lines, "blank", known),
        Record::Long(known) => flawed(lines, "long", known),
        Record::Short(known) => flawed(lines, "short", known),
    }
}

/// The number of the verdict on a record.
fn verdict(record: &Record) -> u8 {
    match record {
        Record::Absent => 0,
        Record::Present(_) => 1,
        Record::Lost => 2,
        Record::Blank(_) => 3,
        Record::Long(_) => 4,
        Record::Short(_) => 5,
    }
}

/// A refusal of a mesh: its number, and its place counted over all corners.
fn refused(case: &Case, refusal: Refusal) -> (u32, usize) {
    let before = |face: usize| -> usize {
        let sizes = case.faces.sizes[..face].iter();
        sizes.map(|&size| usize::from(size)).sum()
    };
    let place = refusal.place();
    let corner = place.map_or(0, |place| before(place.face) + place.corner);
    (refusal.number(), corner)
}

/// The number of a refusal of a card or of packed numbers, from its sentence.
fn number(refusal: &dyn Error) -> u32 {
    let said = refusal.to_string();
    let (_, after) = said.split_once("refusal ").expect("no refusal");
    let (number, _) = after.split_once(':').expect("no number");
    number.parse().expect("no number")
}

/// An answer, slot by slot, or the refusal.
fn answer(lines: &mut Lines, name: &str, case: &Case, answer: Result<Answer, Refusal>) {
    match answer {
        Err(refusal) => {
            let (number, place) = refused(case, refusal);
            lines.said(name, number, place, 0);
        }
        Ok(answer) => {
            lines.said(name, 0, 0, answer.total() as usize);
            readings(lines, answer);
        }
    }
}

/// Each slot of an answer; those that are good, and those that are absent, are as many as it says.
fn readings(lines: &mut Lines, answer: Answer) {
    let (mut good, mut absent) = (0, 0);
    for (_, reading) in answer.readings() {
        good += u32::from(matches!(reading, Reading::Present(_)));
        absent += usize::from(reading == Reading::Absent);
        record(lines, reading.into());
    }
    assert_eq!((answer.good(), answer.absent().count()), (good, absent));
}

/// Frames again, and why slots are absent.
fn reasons(case: &Case, buffers: &mut Buffers, lines: &mut Lines) {
    let number = |reason: Option<Reason>| match reason {
        None => 0,
        Some(Reason::Unwelded) => 1,
        Some(Reason::CopiesAbsent) => 2,
        Some(Reason::Unreached) => 3,
    };
    match buffers.reasons(case.faces.mesh(), case.threshold) {
        Err(refusal) => {
            let (number, place) = refused(case, refusal);
            lines.said("reasons", number, place, 0);
            lines.nothing("why");
        }
        Ok(made) => {
            lines.said("reasons", 0, 0, made.answer.total() as usize);
            readings(lines, made.answer);
            lines.list("why", made.reasons().map(|(_, reason)| number(reason)));
        }
    }
}

/// The records judged, as a card has them: how many are good, and the first that is not.
fn judged(case: &Case, buffers: &mut Buffers, lines: &mut Lines) {
    let mut card = vec![];
    write_card(&case.words, &mut card).expect("it is not written");
    let card = buffers.read_card_as(Kind::New, &card, case.records());
    let card = card.expect("it is not read");
    let verdicts: Vec<u8> = card.records().map(|record| verdict(&record)).collect();
    let first = verdicts.iter().position(|&verdict| verdict != 1);
    lines.said("judge", 0, card.good(), first.unwrap_or(verdicts.len()));
    lines.list("verdicts", verdicts);
}

/// The islands.
fn islands(case: &Case, buffers: &mut Buffers, lines: &mut Lines) {
    match buffers.islands(case.faces.mesh()) {
        Err(refusal) => {
            let (number, place) = refused(case, refusal);
            lines.said("labels", number, place, 0);
            lines.nothing("of faces");
        }
        Ok(islands) => {
            lines.said("labels", 0, 0, islands.count());
            let label = |island: Option<usize>| island.map_or(u32::MAX, |face| face as u32);
            lines.list("of faces", islands.of_faces().map(label));
        }
    }
}

/// What is found of lists.
fn examine(case: &Case, buffers: &mut Buffers, lists: Lists, lines: &mut Lines) {
    let (refusal, number, place) = match buffers.examine(case.faces.mesh(), lists) {
        Ok(()) => (0, 0, 0),
        Err(Objection::Refused(refusal)) => {
            let (number, place) = refused(case, refusal);
            (number, 0, place)
        }
        Err(objection) => {
            let row = objection.side().map(|side| side.row);
            let triangle = objection.triangle().map(|triangle| triangle.number);
            let list = [List::Links, List::Groups, List::Orientations];
            let list = list.iter().position(|&list| objection.list() == Some(list));
            let place = row.or(triangle).or(list).expect("no place");
            (0, objection.number() as usize, place)
        }
    };
    lines.said("examine", refusal, number, place);
}

/// Our own links, examined as they are, and with a word of groups, of orientations and of links changed.
fn links(case: &Case, buffers: &mut Buffers, lines: &mut Lines) {
    let handed = buffers.links(case.faces.mesh());
    let (number, place) = handed
        .as_ref()
        .map_or_else(|r| refused(case, *r), |_| (0, 0));
    let mut own = handed.unwrap_or_default();
    let sound = own.orientations.len();
    lines.said("links", number, place, sound);
    lines.list("links", &own.links);
    lines.list("groups", &own.groups);
    lines.list("orientations", &own.orientations);
    examine(case, buffers, own.lists(), lines);
    if sound > 0 {
        own.groups[case.row % (3 * sound)] += 1;
        examine(case, buffers, own.lists(), lines);
        own.orientations[case.row % sound] ^= 1;
        examine(case, buffers, own.lists(), lines);
        own.links[case.row % (3 * sound)] ^= 1;
        examine(case, buffers, own.lists(), lines);
    }
}

/// What was read from a card.
fn read(lines: &mut Lines, name: &str, card: Result<Card, CardRefusal>) {
    let card = card.expect("it is not read");
    lines.said(name, 0, card.torn, 0);
    records(lines, card);
}

/// Each record of a card.
fn records(lines: &mut Lines, card: Card) {
    let mut good = 0;
    for known in card.records() {
        good += usize::from(matches!(known, Record::Present(_)));
        record(lines, known);
    }
    assert_eq!(card.good(), good);
}

/// A card with one byte turned, as long as the case has it.
fn spoilt(case: &Case, mut card: Vec<u8>) -> Vec<u8> {
    if !card.is_empty() {
        let at = case.row % card.len();
        card[at] ^= 1;
    }
    card.truncate(case.length);
    card
}

/// The records to a card and back, and the card read as an old one.
fn cards(case: &Case, buffers: &mut Buffers, lines: &mut Lines) {
    let (mut card, total) = (vec![7], case.records());
    write_card(&case.words, &mut card).expect("it is not written");
    lines.said("write", 0, card.len(), 0);
    lines.list("card", &card);
    let card = spoilt(case, card);
    read(lines, "read", buffers.read_card(&card, total));
    let old = buffers.read_card_as(Kind::Old, &card, total);
    read(lines, "read as old", old);
}

/// The records to an old card and back, and the card read as a new one.
fn old_cards(case: &Case, buffers: &mut Buffers, lines: &mut Lines) {
    let (mut card, total) = (vec![7], case.records());
    write_card_as(Kind::Old, &case.old_words(), &mut card).expect("it is not written");
    lines.said("old write", 0, card.len(), 0);
    lines.list("old card", &card);
    let card = spoilt(case, card);
    let old = buffers.read_card_as(Kind::Old, &card, total);
    read(lines, "old read", old);
    let new = buffers.read_card_as(Kind::New, &card, total);
    read(lines, "read as new", new);
}

/// What comes next on a card, and what was made to append.
fn appended(
    lines: &mut Lines,
    [name, more, bytes]: [&str; 3],
    next: Result<Next, CardRefusal>,
    added: Result<usize, CardRefusal>,
    blocks: &[u8],
) {
    match next {
        Ok(next) => lines.said(name, 0, next.records, next.at),
        Err(refusal) => lines.said(name, number(&refusal), 0, 0),
    }
    match added {
        Ok(at) => lines.said(more, 0, blocks.len() / 512, at),
        Err(refusal) => lines.said(more, number(&refusal), 0, 0),
    }
    lines.list(bytes, blocks);
}

/// The words from the next block on: each block of either kind holds 120.
fn rest(words: &[u32], next: Result<Next, CardRefusal>) -> &[u32] {
    let at = next.map_or(0, |next| next.at);
    &words[(at / 512 * 120).min(words.len())..]
}

/// What comes next on a card, and the rest appended.
fn appends(case: &Case, lines: &mut Lines) {
    let (long, total, mut blocks) = (case.length, case.records(), vec![7]);
    let next = next_block(long, total);
    let added = append_blocks(long, total, rest(&case.words, next), &mut blocks);
    appended(lines, ["next", "append", "blocks"], next, added, &blocks);
}

/// What comes next on an old card, and the rest appended.
fn old_appends(case: &Case, lines: &mut Lines) {
    let (long, total, mut blocks) = (case.length, case.records(), vec![7]);
    let next = next_block_as(Kind::Old, long, total);
    let words = case.old_words();
    let added = append_blocks_as(Kind::Old, long, total, rest(&words, next), &mut blocks);
    let names = ["old next", "old append", "old blocks"];
    appended(lines, names, next, added, &blocks);
}

/// A card with blocks of both kinds, read as either.
fn either(case: &Case, buffers: &mut Buffers, lines: &mut Lines) {
    let (mut new, mut old) = (vec![], vec![]);
    write_card(&case.words, &mut new).expect("it is not written");
    write_card_as(Kind::Old, &case.old_words(), &mut old).expect("it is not written");
    let card = case.mixed(new, &old);
    let card = buffers.read_card(&card, case.records());
    let card = card.expect("it is not read");
    let kind = u32::from(card.kind == Kind::New);
    lines.said("either", kind, card.torn, card.of_other_kind);
    records(lines, card);
}

/// The records of an old card as slots, as a card has them, and packed.
fn widened(case: &Case, buffers: &mut Buffers, lines: &mut Lines) {
    let (slots, mut card, mut packed) = (case.widened(), vec![], vec![]);
    lines.list("widened", &slots);
    write_card(&slots, &mut card).expect("it is not written");
    let card = buffers.read_card_as(Kind::New, &card, case.records());
    records(lines, card.expect("it is not read"));
    pack(&slots, &mut packed).expect("it is not packed");
    lines.said("pack widened", 0, packed.len(), 0);
    lines.list("packed widened", &packed);
}

/// The records packed and read, and read again with one slot spoilt.
fn packs(case: &Case, lines: &mut Lines) {
    let mut packed = vec![7];
    pack(&case.words, &mut packed).expect("it is not packed");
    lines.said("pack", 0, packed.len(), 0);
    lines.list("packed", &packed);
    lines.said("unpack", 0, 0, 0);
    let slots = unpack(&packed).expect("it is not read").into_iter();
    for (slot, seven) in slots.zip(packed.chunks_exact(7)) {
        match slot {
            Packed::Absent => lines.nothing("absent"),
            // the others have them as they are
            Packed::NoDirection => {
                let words = seven[..6].iter().map(|number| i32::from(*number) as u32);
                lines.list("present", words.chain([u32::from(seven[6] == 1)]));
            }
            Packed::Present {
                directions,
                preserving,
            } => {
                let words = directions.map(|number| i32::from(number) as u32);
                lines.list("present", words.into_iter().chain([u32::from(preserving)]));
            }
        }
    }
    if let Some(slot) = case.row.checked_rem(packed.len() / 7) {
        packed[7 * slot + 6] = 0;
    }
    match unpack(&packed) {
        Ok(_) => lines.said("unpack", 0, 0, 0),
        Err(dokphalun::PackRefusal::NotPacked { slot }) => lines.said("unpack", 3, slot, 0),
        Err(refusal) => lines.said("unpack", number(&refusal), 0, 0),
    }
}

/// A part of a list: where it stands in the list, by its address, and how many numbers it has.
fn part<const N: usize>(lines: &mut Lines, list: u32, all: &[[f32; N]], part: &[[f32; N]]) {
    let from = (part.as_ptr().addr() - all.as_ptr().addr()) / 4;
    lines.said("part", list, from, N * part.len());
}

/// The parts of the lists that belong to each face, and to one past the last; and of no list.
fn parts(case: &Case, lines: &mut Lines) {
    let mesh = case.faces.mesh();
    for face in 0..=mesh.sizes.len() {
        part(lines, 0, mesh.positions, mesh.positions_of(face));
        part(lines, 1, mesh.normals, mesh.normals_of(face));
        part(lines, 2, mesh.texture, mesh.texture_of(face));
        lines.said("part", 3, 0, 0);
    }
}

/// The lines of a case.
pub fn case(case: &Case, buffers: &mut Buffers, lines: &mut Lines) {
    let (mesh, threshold) = (case.faces.mesh(), case.threshold);
    parts(case, lines);
    answer(lines, "frames", case, buffers.frames(mesh, threshold));
    let by = buffers.frames_by_islands(mesh, threshold);
    answer(lines, "by islands", case, by);
    islands(case, buffers, lines);
    reasons(case, buffers, lines);
    judged(case, buffers, lines);
    links(case, buffers, lines);
    cards(case, buffers, lines);
    appends(case, lines);
    old_cards(case, buffers, lines);
    old_appends(case, lines);
    either(case, buffers, lines);
    widened(case, buffers, lines);
    packs(case, lines);
}
