//! The archive's verdict on every slot. Nothing here looks into a slot's words.
use crate::card::Kind;
use dokphalun_sys::{self as archive, OLD_SLOT_WORDS, SLOT_WORDS, verdict};

/// How many records of an old card are judged at once.
const AT_ONCE: usize = 1024;

/// Has the archive judge records of a kind, a byte each; the result is how many are good. What it does not judge is lost.
pub(crate) fn judge(kind: Kind, words: &[u32], verdicts: &mut Vec<u8>) -> usize {
    verdicts.clear();
    verdicts.resize(words.len() / kind.record_words(), verdict::LOST);
    match kind {
        Kind::New => archive::judge(words, verdicts).good as usize,
        Kind::Old => {
            let records = words.chunks(AT_ONCE * OLD_SLOT_WORDS);
            let parts = records.zip(verdicts.chunks_mut(AT_ONCE));
            let good = |(records, verdicts): (&[u32], &mut [u8])| {
                archive::judge(&widened(records), verdicts).good as usize
            };
            parts.map(good).sum()
        }
    }
}

/// Records of an old card as slots: two zeros follow the ten words of each.
fn widened(records: &[u32]) -> Vec<u32> {
    let records = records.chunks_exact(OLD_SLOT_WORDS);
    let more = [0; SLOT_WORDS - OLD_SLOT_WORDS];
    records
        .flat_map(|record| record.iter().copied().chain(more))
        .collect()
}
