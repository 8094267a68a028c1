//! Cards of both kinds through the archive: written, read, damaged, appended to.
use dokphalun::{
    BLOCK_BYTES, Buffers, Card, CardRefusal, Frame, Kind, Next, Origin, Record, append_blocks,
    append_blocks_as, next_block, next_block_as, write_card, write_card_as,
};

/// A card that was written before request E7, of the 17 slots of old/steel.ply.
const STEEL: &[u8] = include_bytes!("old/steel.card");
/// Its letters: present or absent.
const STEEL_LETTERS: &str = "ppppppppppaaapppp";

/// The bits of a half, and of those numbers next to it that tell a record's number.
fn half(number: u32) -> u32 {
    0x3f00_0000 + number
}

/// The words of a record that tells its number everywhere but in its origin and its orientation.
fn record(kind: Kind, number: u32) -> Vec<u32> {
    let (n, told) = (half(number), [1, 1 + number % 4, 100 + number]);
    let mut words = [&[1, n, n, n, n, n, n, n, n], &told[..]].concat();
    words.truncate(kind.record_words());
    words
}

/// So many records of a kind, each third one absent.
fn words_as(kind: Kind, records: u32) -> Vec<u32> {
    (0..records)
        .flat_map(|number| match number % 3 {
            0 => vec![0; kind.record_words()],
            _ => record(kind, number),
        })
        .collect()
}

/// A card of so many records of a kind.
fn card_of(kind: Kind, records: u32) -> Vec<u8> {
    let mut card = Vec::new();
    write_card_as(kind, &words_as(kind, records), &mut card).unwrap();
    card
}

/// A card of 30 records of a kind: three blocks.
fn card_as(kind: Kind) -> Vec<u8> {
    card_of(kind, 30)
}

/// The letters of the records: present, absent, lost, or of no use: blank, long or short.
fn letters(card: &Card) -> String {
    let letters = card.records().map(|record| match record {
        Record::Present(_) => 'p',
        Record::Absent => 'a',
        Record::Lost => 'L',
        Record::Blank(_) => 'b',
        Record::Long(_) => 'l',
        Record::Short(_) => 's',
    });
    letters.collect()
}

/// What is read of a card of either kind: the kind, the letters, the torn bytes, and the records of the other kind.
fn read(card: &[u8], total: u32) -> (Kind, String, usize, usize) {
    let mut buffers = Buffers::new();
    let card = buffers.read_card(card, total).unwrap();
    (card.kind, letters(&card), card.torn, card.of_other_kind)
}

/// The same of a card that is read as a kind.
fn read_as(kind: Kind, card: &[u8], total: u32) -> (String, usize, usize) {
    let mut buffers = Buffers::new();
    let card = buffers.read_card_as(kind, card, total).unwrap();
    assert_eq!(card.kind, kind);
    (letters(&card), card.torn, card.of_other_kind)
}

#[test]
fn the_kinds_have_their_widths() {
    let widths = [Kind::Old, Kind::New].map(|kind| (kind.record_words(), kind.block_records()));
    assert_eq!(widths, [(10, 12), (12, 10)]);
    assert_eq!(Kind::default(), Kind::New);
    for kind in [Kind::Old, Kind::New] {
        // word 3 of a block tells its kind
        let told = if kind == Kind::New { 2 } else { 0 };
        assert_eq!(card_as(kind)[12..16], [told, 0, 0, 0], "{kind:?}");
        assert_eq!(card_as(kind)[4], kind.block_records() as u8, "{kind:?}");
        assert_eq!(kind.other().other(), kind);
        assert_ne!(kind.other(), kind);
    }
}

#[test]
fn a_card_reads_back_and_says_its_kind() {
    for kind in [Kind::Old, Kind::New] {
        let card = card_as(kind);
        assert_eq!(card.len(), 3 * BLOCK_BYTES);
        assert_eq!(read(&card, 30), (kind, "app".repeat(10), 0, 0));
        assert_eq!(read_as(kind, &card, 30), ("app".repeat(10), 0, 0));
    }
    assert_eq!(read(&[], 0), (Kind::New, String::new(), 0, 0));
    let mut card = vec![7];
    write_card(&words_as(Kind::New, 30), &mut card).unwrap();
    assert_eq!(card, card_as(Kind::New));
}

#[test]
fn to_a_reader_of_one_kind_the_other_is_lost() {
    for kind in [Kind::Old, Kind::New] {
        let other = read_as(kind.other(), &card_as(kind), 30);
        assert_eq!(other, ("L".repeat(30), 0, 30));
    }
}

/// The frame of a record of the cards above.
fn frame(kind: Kind, number: u32) -> Frame {
    let (half, origin) = (f32::from_bits(half(number)), number % 4);
    let told = [
        Origin::Single,
        Origin::Combined,
        Origin::Copied,
        Origin::Filled,
    ];
    Frame {
        tangent: [half; 3],
        bitangent: [half; 3],
        mag_s: half,
        mag_t: half,
        preserving: true,
        origin: match kind {
            Kind::Old => Origin::NotRecorded,
            Kind::New => told[origin as usize],
        },
        behind: (kind == Kind::New).then_some(100 + number),
    }
}

#[test]
fn records_say_where_their_frames_come_from_on_a_new_card_alone() {
    let mut buffers = Buffers::new();
    for kind in [Kind::Old, Kind::New] {
        let card = card_as(kind);
        let card = buffers.read_card(&card, 30).unwrap();
        for (number, record) in (0..).zip(card.records()) {
            let wanted = match number % 3 {
                0 => Record::Absent,
                _ => Record::Present(frame(kind, number)),
            };
            assert_eq!(record, wanted, "{kind:?}, record {number}");
        }
    }
}

#[test]
fn a_word_that_is_no_origin_is_not_recorded() {
    for (word, origin) in [
        (0, Origin::NotRecorded),
        (1, Origin::Single),
        (4, Origin::Filled),
        (5, Origin::NotRecorded),
        (u32::MAX, Origin::NotRecorded),
    ] {
        let mut words = record(Kind::New, 7);
        (words[10], words[11]) = (word, 9);
        let (mut buffers, mut card) = (Buffers::new(), vec![]);
        write_card(&words, &mut card).unwrap();
        let card = buffers.read_card(&card, 1).unwrap();
        let Some(Record::Present(frame)) = card.records().next() else {
            panic!("it is not present");
        };
        // without an origin the last word is no count either
        let behind = (origin != Origin::NotRecorded).then_some(9);
        assert_eq!((frame.origin, frame.behind), (origin, behind));
    }
}

#[test]
fn a_card_from_before_is_read() {
    assert_eq!(
        read(STEEL, 17),
        (Kind::Old, STEEL_LETTERS.to_string(), 0, 0)
    );
    let mut buffers = Buffers::new();
    let card = buffers.read_card(STEEL, 17).unwrap();
    let Some(Record::Present(frame)) = card.records().nth(14) else {
        panic!("it is not present");
    };
    assert_eq!(frame.tangent, [0.9557791, 0.0, -0.2940858]);
    assert_eq!(frame.bitangent, [0.0, 1.0, 0.0]);
    assert_eq!((frame.mag_s, frame.mag_t), (1.1180341, 1.0));
    assert!(frame.preserving);
    assert_eq!((frame.origin, frame.behind), (Origin::NotRecorded, None));
}

/// A card of so many records of a kind, with this block of the other kind.
fn mixed(kind: Kind, records: u32, block: usize) -> Vec<u8> {
    let (mut card, other) = (card_of(kind, records), card_of(kind.other(), records));
    let bytes = block * BLOCK_BYTES..(block + 1) * BLOCK_BYTES;
    card[bytes.clone()].copy_from_slice(&other[bytes]);
    card
}

#[test]
fn the_kind_is_the_one_that_finds_more_records() {
    let old = "app".repeat(4);
    // 12 and 6 records of the old kind against 10 of the new
    let (kind, letters, torn, other) = read(&mixed(Kind::Old, 30, 1), 30);
    assert_eq!((kind, torn, other), (Kind::Old, 0, 10));
    assert_eq!(letters, format!("{old}{}appapp", "L".repeat(12)));
    // 12 of the old kind against 20 of the new
    let card = mixed(Kind::New, 30, 0);
    let (kind, letters, torn, other) = read(&card, 30);
    assert_eq!((kind, torn, other), (Kind::New, 0, 12));
    let rest = &"app".repeat(10)[10..];
    assert_eq!(letters, format!("{}{rest}", "L".repeat(10)));
    // 12 of the old kind against 10 of the new
    let (kind, letters, torn, other) = read(&card[..2 * BLOCK_BYTES], 30);
    assert_eq!((kind, torn, other), (Kind::Old, 0, 10));
    assert_eq!(letters, format!("{old}{}", "L".repeat(18)));
}

#[test]
fn where_both_find_as_many_the_kind_is_the_new_one() {
    assert_eq!(read(&[7; 600], 30), (Kind::New, "L".repeat(30), 88, 0));
    // of 22 records the first 10 on a new block, the last 10 on an old one
    let tie = &mixed(Kind::New, 22, 1)[..2 * BLOCK_BYTES];
    let (kind, letters, torn, other) = read(tie, 22);
    assert_eq!((kind, torn, other), (Kind::New, 0, 10));
    assert_eq!(letters, format!("appappappa{}", "L".repeat(12)));
}

#[test]
fn a_lost_block_is_told() {
    let card = card_as(Kind::New);
    let mut spoilt = card.clone();
    spoilt[BLOCK_BYTES + 60] ^= 8;
    let whole = "app".repeat(10);
    let lost = format!("{}{}{}", &whole[..10], "L".repeat(10), &whole[20..]);
    assert_eq!(read(&spoilt, 30), (Kind::New, lost, 0, 0));
    let cut = &card[..BLOCK_BYTES + 100];
    let lost = format!("{}{}", &whole[..10], "L".repeat(20));
    assert_eq!(read(cut, 30), (Kind::New, lost, 100, 0));
    assert_eq!(read(&card, 29), (Kind::New, "L".repeat(29), 0, 0));
}

#[test]
fn refusals_leave_no_card() {
    for kind in [Kind::Old, Kind::New] {
        let (mut card, mut bad) = (card_as(kind), words_as(kind, 3));
        bad[kind.record_words()] = 2;
        for words in [&bad[..], &words_as(kind, 3)[1..]] {
            let refused = write_card_as(kind, words, &mut card);
            assert_eq!(refused, Err(CardRefusal::NotRecords), "{kind:?}");
            assert!(card.is_empty());
        }
        // whole records of the other kind
        let other = words_as(kind.other(), 3);
        let refused = write_card_as(kind, &other, &mut card);
        assert_eq!(refused, Err(CardRefusal::NotRecords), "{kind:?}");
    }
    let refused = write_card(&words_as(Kind::Old, 3), &mut vec![7]);
    assert_eq!(refused, Err(CardRefusal::NotRecords));
}

/// Appends the next block to a card that was cut.
fn append(kind: Kind, card: &mut Vec<u8>) {
    let (words, width) = (words_as(kind, 30), kind.record_words());
    let next = next_block_as(kind, card.len(), 30).unwrap();
    let from = next.at / BLOCK_BYTES * kind.block_records();
    let mut blocks = Vec::new();
    let part = &words[from * width..(from + next.records) * width];
    assert_eq!(
        append_blocks_as(kind, card.len(), 30, part, &mut blocks),
        Ok(next.at)
    );
    card.truncate(next.at);
    card.extend(blocks);
}

#[test]
fn a_torn_card_is_appended_to() {
    for kind in [Kind::Old, Kind::New] {
        for cut in [0, 1, 511, 512, 1022, 1535] {
            let mut torn = card_as(kind);
            torn.truncate(cut);
            while torn.len() < 3 * BLOCK_BYTES {
                append(kind, &mut torn);
            }
            assert_eq!(torn, card_as(kind), "{kind:?} cut to {cut}");
        }
        let whole = Next {
            records: 0,
            at: 1536,
        };
        assert_eq!(next_block_as(kind, 1536, 30), Ok(whole));
    }
}

#[test]
fn appending_goes_by_the_kind() {
    let records = |kind, long| next_block_as(kind, long, 30).map(|next| next.records);
    assert_eq!(records(Kind::Old, 1100), Ok(6));
    assert_eq!(records(Kind::New, 1100), Ok(10));
    assert_eq!(next_block(1100, 30), next_block_as(Kind::New, 1100, 30));
    let mut blocks = vec![7];
    let words = words_as(Kind::New, 10);
    assert_eq!(append_blocks(1100, 30, &words, &mut blocks), Ok(1024));
    assert_eq!(blocks[12], 2);
}

#[test]
fn appending_refuses() {
    let mut blocks = vec![7];
    for kind in [Kind::Old, Kind::New] {
        let beyond = next_block_as(kind, 1537, 30);
        assert_eq!(beyond, Err(CardRefusal::BeyondTotal), "{kind:?}");
        let records = words_as(kind, 11);
        let refused = append_blocks_as(kind, 512, 30, &records, &mut blocks);
        assert_eq!(refused, Err(CardRefusal::NotTheNext), "{kind:?}");
        assert!(blocks.is_empty());
    }
}
