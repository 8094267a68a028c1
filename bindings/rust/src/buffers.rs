//! The lists that are lent to the archive, kept from call to call.
use crate::card::{Card, Kind, read_as, write_card, write_card_as};
use crate::islands::{Batch, Own};
use crate::mesh::{MOST_FACES, Mesh, Place, slots, takes_slots};
use crate::reading::Reading;
use crate::refusal::{CardRefusal, Refusal};
use crate::verdicts::judge;
use dokphalun_sys::{self as archive, OLD_SLOT_WORDS, SLOT_WORDS, WORK_WORDS, verdict};

/// The lists that are lent to the archive. They grow to what the largest call needed, and are used again.
#[derive(Debug, Default)]
pub struct Buffers {
    pub(crate) answer: Vec<u32>,
    pub(crate) work: Vec<u32>,
    /// The verdict on each slot or record, and how many are good.
    verdicts: Vec<u8>,
    good: usize,
    /// Why slots are absent.
    pub(crate) reasons: Vec<u8>,
    /// The islands' own lists.
    pub(crate) own: Own,
    /// What is handed to each thread.
    pub(crate) batches: Vec<Batch>,
}

impl Buffers {
    /// No lists yet.
    pub fn new() -> Buffers {
        Buffers::default()
    }

    /// The frames of a mesh. The threshold is the cosine of the angle up to which tangents are joined; -1 sets no limit.
    pub fn frames<'a>(&'a mut self, mesh: Mesh<'a>, threshold: f32) -> Result<Answer<'a>, Refusal> {
        self.make(mesh, threshold)?;
        Ok(self.judged().answer(mesh.sizes, 1))
    }

    /// Makes the frames of a mesh, and does not judge them.
    pub(crate) fn make(&mut self, mesh: Mesh, threshold: f32) -> Result<(), Refusal> {
        self.lend(mesh.sizes);
        let outcome = archive::frames(mesh.flat(), threshold, &mut self.answer, &mut self.work);
        match Refusal::of(outcome.number, outcome.place, mesh.sizes) {
            Some(refusal) => Err(refusal),
            None => Ok(()),
        }
    }

    /// Has the archive judge each slot that was made.
    pub(crate) fn judged(&mut self) -> &Buffers {
        self.good = judge(Kind::New, &self.answer, &mut self.verdicts);
        self
    }

    /// The answer of faces of these sizes, made in so many parts and judged.
    pub(crate) fn answer<'a>(&'a self, sizes: &'a [u8], parts: usize) -> Answer<'a> {
        Answer {
            sizes,
            words: &self.answer,
            verdicts: &self.verdicts,
            good: self.good,
            parts,
        }
    }

    /// The records of a card of either kind that was written with so many: as the kind by which more of them are found, and as the new one
    /// where both find as many. What is read says which kind that is.
    pub fn read_card(&mut self, card: &[u8], total: u32) -> Result<Card<'_>, CardRefusal> {
        let old = self.card(Kind::Old, card, total, 0)?.found();
        let new = self.card(Kind::New, card, total, 0)?.found();
        match old > new {
            true => self.card(Kind::Old, card, total, new),
            false => self.card(Kind::New, card, total, old),
        }
    }

    /// The records of a card of a kind that was written with so many.
    pub fn read_card_as(
        &mut self,
        kind: Kind,
        card: &[u8],
        total: u32,
    ) -> Result<Card<'_>, CardRefusal> {
        let of_other_kind = self.card(kind.other(), card, total, 0)?.found();
        self.card(kind, card, total, of_other_kind)
    }

    /// A card read as a kind, where so many records of the other kind stand on it.
    fn card(
        &mut self,
        kind: Kind,
        card: &[u8],
        total: u32,
        of_other_kind: usize,
    ) -> Result<Card<'_>, CardRefusal> {
        let torn = read_as(kind, card, total, &mut self.answer)?;
        let records = total as usize;
        self.verdicts.clear();
        let room = self.verdicts.try_reserve_exact(records);
        room.map_err(|_| CardRefusal::NoMemory { records })?;
        let good = judge(kind, &self.answer, &mut self.verdicts);
        let (words, verdicts) = (&self.answer, &self.verdicts);
        Ok(Card::of(words, verdicts, good, kind, torn, of_other_kind))
    }

    /// Makes both lists as long as faces of these sizes need; past the limit, where all is refused, no longer than at it. The result is
    /// how many slots there is room for.
    pub(crate) fn lend(&mut self, sizes: &[u8]) -> usize {
        let sizes = &sizes[..sizes.len().min(MOST_FACES)];
        let with_slots = sizes.iter().filter(|&&size| takes_slots(size));
        let slots: usize = with_slots.map(|&size| usize::from(size)).sum();
        self.answer.resize(slots * SLOT_WORDS, 0);
        if self.work.len() < sizes.len() * WORK_WORDS {
            self.work.resize(sizes.len() * WORK_WORDS, 0);
        }
        slots
    }
}

/// The readings of a mesh.
#[derive(Clone, Copy, Debug)]
pub struct Answer<'a> {
    sizes: &'a [u8],
    words: &'a [u32],
    verdicts: &'a [u8],
    good: usize,
    parts: usize,
}

impl<'a> Answer<'a> {
    /// Each slot: its face and corner, and what is known of it.
    pub fn readings(&self) -> impl Iterator<Item = (Place, Reading)> + Clone + use<'a> {
        let judged = self.words.chunks_exact(SLOT_WORDS).zip(self.verdicts);
        let readings = judged.map(|(words, &verdict)| Reading::of(words, verdict));
        slots(self.sizes).zip(readings)
    }

    /// The corners that have no frame.
    pub fn absent(&self) -> impl Iterator<Item = Place> + Clone + use<'a> {
        let judged = slots(self.sizes).zip(self.verdicts);
        let absent = judged.filter(|(_, byte)| **byte == verdict::ABSENT);
        absent.map(|(place, _)| place)
    }

    /// How many slots are good, as the archive counts them. [`Answer::all_good`] says whether that is all.
    pub fn good(&self) -> u32 {
        self.good as u32
    }

    /// Whether there is a slot, and the archive counts every one as good. Faces that take no slot are not asked.
    pub fn all_good(&self) -> bool {
        self.good > 0 && self.good == self.words.len() / SLOT_WORDS
    }

    /// How many slots there are. A reader of the card has to be told this number.
    pub fn total(&self) -> u32 {
        (self.words.len() / SLOT_WORDS) as u32
    }

    /// In how many parts it was made, each on a thread of its own.
    pub fn parts(&self) -> usize {
        self.parts
    }

    /// The twelve words of each slot, as the archive wrote them. An absent slot is twelve zeros, and a slot that
    /// says it is there need not be good: [`Answer::readings`] says which is, and is asked before they are packed.
    pub fn words(&self) -> &'a [u32] {
        self.words
    }

    /// The bytes of a card with these readings.
    pub fn write_card(&self, card: &mut Vec<u8>) -> Result<(), CardRefusal> {
        write_card(self.words, card)
    }

    /// The bytes of a card of a kind with these readings. On one of the old kind, where they come from is left out.
    pub fn write_card_as(&self, kind: Kind, card: &mut Vec<u8>) -> Result<(), CardRefusal> {
        match kind {
            Kind::Old => {
                let slots = self.words.chunks_exact(SLOT_WORDS);
                let records: Vec<&[u32]> = slots.map(|slot| &slot[..OLD_SLOT_WORDS]).collect();
                write_card_as(kind, &records.concat(), card)
            }
            Kind::New => self.write_card(card),
        }
    }
}
