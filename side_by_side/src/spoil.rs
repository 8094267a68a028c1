//! Wrong words on purpose: each alters one word of what ours leaves, to show that the comparison notices it.
use crate::mesh::{Mesh, SLOT_WORDS};
use crate::ours::{GUARD, Held, Left};

/// Which word is altered.
#[derive(Clone, Copy, Debug, PartialEq)]
pub enum Spoil {
    /// The lowest bit of this word, 1 to 7, 10 or 11, of the last present slot.
    Word(usize),
    /// The orientation of the last slot that is present and mirrored.
    Orientation,
    /// The lowest bit of the last mag_t that is not 1.
    Magnitude,
    /// Where the last slot came from that is combined or copied: it calls itself single.
    Origin,
    /// This word of the first absent slot: 0, so that its zeros call themselves present; 10, so that they came from somewhere; 11, so that something stood behind them.
    Absent(usize),
    /// The first answer word past 12S.
    PastAnswer,
    /// The last of the first 128F work words.
    Work,
    /// The first work word past 128F.
    PastWork,
    /// The number of refusal 5.
    Number,
    /// The place of refusal 4.
    Place,
    /// The number of refusal 7.
    BareNumber,
    /// The place of refusal 7.
    BarePlace,
    /// The count of slots of an accepted mesh.
    Slots,
    /// The last answer word after a refusal.
    RefusedAnswer,
    /// The first work word after a refusal.
    RefusedWork,
    /// The last word of a shuffle's last present slot, only where faces are compared with the same faces alone.
    Shuffled,
    /// The word before the answer list.
    BeforeAnswer,
    /// The last of the words that stand past the answer list.
    BesideAnswer,
    /// The word before the work list.
    BeforeWork,
    /// The last of the words that stand past the work list.
    BesideWork,
    /// The last size that is handed in.
    Handed,
}

/// All of them, by the names that the options have.
pub const SPOILS: [(&str, Spoil); 31] = [
    ("tangent-x", Spoil::Word(1)),
    ("tangent-y", Spoil::Word(2)),
    ("tangent-z", Spoil::Word(3)),
    ("bitangent-x", Spoil::Word(4)),
    ("bitangent-y", Spoil::Word(5)),
    ("bitangent-z", Spoil::Word(6)),
    ("mag-s", Spoil::Word(7)),
    ("orientation", Spoil::Orientation),
    ("magnitude", Spoil::Magnitude),
    ("origin", Spoil::Word(10)),
    ("single-origin", Spoil::Origin),
    ("behind", Spoil::Word(11)),
    ("absent", Spoil::Absent(0)),
    ("absent-origin", Spoil::Absent(10)),
    ("absent-behind", Spoil::Absent(11)),
    ("past-answer", Spoil::PastAnswer),
    ("work", Spoil::Work),
    ("past-work", Spoil::PastWork),
    ("number", Spoil::Number),
    ("place", Spoil::Place),
    ("bare-number", Spoil::BareNumber),
    ("bare-place", Spoil::BarePlace),
    ("slots", Spoil::Slots),
    ("refused-answer", Spoil::RefusedAnswer),
    ("refused-work", Spoil::RefusedWork),
    ("shuffled", Spoil::Shuffled),
    ("before-answer", Spoil::BeforeAnswer),
    ("beside-answer", Spoil::BesideAnswer),
    ("before-work", Spoil::BeforeWork),
    ("beside-work", Spoil::BesideWork),
    ("handed", Spoil::Handed),
];

impl Spoil {
    /// Alters the word in what a call left, where there is such a word.
    pub fn call(self, mesh: &Mesh, left: &mut Left) {
        let accepted = left.outcome.number == 0;
        let answer = if accepted { mesh.needed_answer() } else { 0 };
        let work = if accepted { mesh.needed_work() } else { 0 };
        match self {
            Spoil::Word(word) => flip(last(&mut left.answer[..answer], word, |_| true)),
            Spoil::Orientation => flip(last(&mut left.answer[..answer], 9, |slot| slot[9] == 0)),
            Spoil::Magnitude => flip(last(&mut left.answer[..answer], 8, |slot| {
                slot[8] != 0x3F80_0000
            })),
            Spoil::Origin => last(&mut left.answer[..answer], 10, |slot| slot[10] != 1)
                .into_iter()
                .for_each(|origin| *origin = 1),
            Spoil::Absent(word) => flip(
                left.answer[..answer]
                    .chunks_mut(SLOT_WORDS)
                    .find(|slot| slot[0] == 0)
                    .map(|slot| &mut slot[word]),
            ),
            Spoil::PastAnswer if accepted => flip(left.answer.get_mut(answer)),
            Spoil::Work => flip(left.work[..work].last_mut()),
            Spoil::PastWork if accepted => flip(left.work.get_mut(work)),
            Spoil::Number if left.outcome.number == 5 => left.outcome.number = 6,
            Spoil::Place if left.outcome.number == 4 => left.outcome.place += 1,
            Spoil::BareNumber if left.outcome.number == 7 => left.outcome.number = 4,
            Spoil::BarePlace if left.outcome.number == 7 => left.outcome.place += 1,
            Spoil::Slots if accepted => left.outcome.slots += 1,
            Spoil::RefusedAnswer if !accepted => flip(left.answer.last_mut()),
            Spoil::RefusedWork if !accepted => flip(left.work.first_mut()),
            _ => {}
        }
    }

    /// Alters the word in what was handed in, or beside a lent list.
    pub fn beside(self, held: &mut Held) {
        match self {
            Spoil::BeforeAnswer => flip(held.answer.get_mut(GUARD - 1)),
            Spoil::BesideAnswer => flip(held.answer.last_mut()),
            Spoil::BeforeWork => flip(held.work.get_mut(GUARD - 1)),
            Spoil::BesideWork => flip(held.work.last_mut()),
            Spoil::Handed => held
                .handed
                .sizes
                .iter_mut()
                .rev()
                .take(1)
                .for_each(|size| *size ^= 1),
            _ => {}
        }
    }

    /// Alters the word in a shuffle's answers.
    pub fn shuffle(self, answer: &mut [u32]) {
        if self == Spoil::Shuffled {
            flip(last(answer, SLOT_WORDS - 1, |_| true));
        }
    }
}

/// Word `word` of the last present slot that is as asked.
fn last(answer: &mut [u32], word: usize, asked: fn(&[u32]) -> bool) -> Option<&mut u32> {
    answer
        .chunks_mut(SLOT_WORDS)
        .rfind(|slot| slot[0] == 1 && asked(slot))
        .map(|slot| &mut slot[word])
}

/// Turns the lowest bit of a word, if there is one.
fn flip(word: Option<&mut u32>) {
    if let Some(word) = word {
        *word ^= 1;
    }
}
