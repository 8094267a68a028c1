//! Both judges on the same lists, every byte, also outside what was lent; and what came up.
use models::lent::{Left, answered, same};
use models::packed::SLOT;
use models::worth::{ALL, Said, Worth, judge};

/// Bits of a component without its sign at which a verdict changes, and those beside them.
pub const EDGES: [u32; 18] = [
    0,
    1,
    0x007F_FFFF,
    0x0080_0000,
    0x0080_0001,
    0x3780_00FF,
    0x3780_0100,
    0x3780_0101,
    0x3F7F_FFFF,
    0x3F80_0000,
    0x3F80_0007,
    0x3F80_0008,
    0x3F80_0009,
    0x7F7F_FFFF,
    0x7F80_0000,
    0x7F80_0001,
    0x7FC0_0000,
    0x7FFF_FFFF,
];

/// The verdicts of the archive on an answer list, counted as answered by it.
fn ours(answer: &[u32], verdicts: &mut [u8]) -> Said {
    let said = answered(dokphalun_sys::judge(answer, verdicts));
    (said.number, said.good, said.first)
}

/// An answer list into a lent list of `room` bytes, by both; the plain one takes this verdict on each slot.
pub fn both(
    verdict: impl Fn(&[u32]) -> Worth,
    answer: &[u32],
    room: usize,
) -> Result<Left<u8, Said>, String> {
    // no byte that is lent is a verdict
    let fill = |i: usize| 0x90 + (i % 64) as u8;
    let plain = |verdicts: &mut [u8]| judge(&verdict, answer, verdicts);
    same(fill, room, plain, |verdicts| ours(answer, verdicts))
        .map_err(|what| format!("{answer:X?} to {room}: {what}"))
}

/// What came up in slots that were judged.
#[derive(Default)]
pub struct Seen {
    pub slots: u64,
    verdicts: [u64; ALL.len()],
    /// Slots whose word 0 is 1, by an edge's number and the sign, wherever it stands.
    edges: [[u64; 2]; EDGES.len()],
}

impl Seen {
    /// Counts the slots of an answer list with their verdicts.
    pub fn count(&mut self, answer: &[u32], verdicts: &[u8]) {
        for (slot, verdict) in answer.chunks_exact(SLOT).zip(verdicts) {
            self.slots += 1;
            self.verdicts[usize::from(*verdict)] += 1;
            for bits in slot[1..=6].iter().filter(|_| slot[0] == 1) {
                let edge = EDGES.iter().position(|edge| *edge == bits << 1 >> 1);
                edge.into_iter()
                    .for_each(|edge| self.edges[edge][(bits >> 31) as usize] += 1);
            }
        }
    }

    /// How often each verdict came up.
    pub fn said(&self) -> String {
        let counts = ALL.iter().zip(self.verdicts);
        let counts: Vec<String> = counts
            .map(|(worth, count)| format!("{count} {worth:?}").to_lowercase())
            .collect();
        format!("{} slots: {}", self.slots, counts.join(", "))
    }

    /// How often a verdict came up.
    pub fn of(&self, worth: Worth) -> u64 {
        self.verdicts[worth as usize]
    }

    /// Whether each verdict came up, and each edge with either sign.
    pub fn whole(&self) -> Result<(), String> {
        if let Some(verdict) = self.verdicts.iter().position(|count| *count == 0) {
            return Err(format!("{:?} never came up", ALL[verdict]));
        }
        let never = |signs: &[u64; 2]| signs.contains(&0);
        match self.edges.iter().position(never) {
            Some(edge) => Err(format!("{:08X} never came up", EDGES[edge])),
            None => Ok(()),
        }
    }
}
