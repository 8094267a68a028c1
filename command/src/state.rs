//! What is known of a corner, in one word, by the archive's verdict; and how many corners there are of each.
use crate::cause::parallel;
use crate::stop::Status;
use crate::surface::Surface;
use dokphalun::{Flawed, Frame, Kind, Origin, Place, Reason, Record, slots, takes_slots};

/// What is known of a corner. Only the first is good.
#[derive(Clone, Copy, Debug, PartialEq, Eq)]
pub enum State {
    /// It has a frame, and that is good.
    Present,
    /// It has a frame without two directions, or without an orientation.
    NoDirection,
    /// It has a frame with a direction so short that it is packed as zeros.
    TooShort,
    /// It has a frame with a direction so long that it is packed as absent.
    TooLong,
    /// It has no frame.
    Absent,
    /// A card of the new kind has a frame of it whose word for the orientation is neither 0 nor 1: no answer has such a one.
    NoOrientation,
    /// A card of the new kind has a frame of it that comes from nowhere, or from no triangle: no answer has such a one.
    NoOrigin,
    /// The card has lost it.
    Lost,
}

/// The states that are not good, worst last.
pub const BAD: [State; 7] = [
    State::NoDirection,
    State::TooShort,
    State::TooLong,
    State::Absent,
    State::NoOrientation,
    State::NoOrigin,
    State::Lost,
];

/// The states that no answer's slot is in: only a card has such records.
pub const NO_ANSWERS: [State; 3] = [State::NoOrientation, State::NoOrigin, State::Lost];

/// The states of frames that are there and of no use, as the archive judges them.
pub const FLAWED: [State; 3] = [State::NoDirection, State::TooShort, State::TooLong];

impl State {
    /// What is known of a record of a kind: the archive's verdict. A frame that no answer has is worse, whatever that is.
    pub fn of(record: &Record, kind: Kind) -> State {
        let (judged, origin, behind) = match record {
            Record::Lost => return State::Lost,
            Record::Absent => return State::Absent,
            Record::Present(frame) => (State::Present, frame.origin, frame.behind),
            Record::Blank(frame) => (blank(frame, kind), frame.origin(), frame.behind()),
            Record::Short(frame) => (State::TooShort, frame.origin(), frame.behind()),
            Record::Long(frame) => (State::TooLong, frame.origin(), frame.behind()),
        };
        match kind == Kind::New && !from_somewhere(origin, behind) {
            true => State::NoOrigin,
            false => judged,
        }
    }

    /// Its word. Only what is good is written small.
    pub fn word(self) -> &'static str {
        match self {
            State::Present => "present",
            State::NoDirection => "NO DIRECTION",
            State::TooShort => "TOO SHORT",
            State::TooLong => "TOO LONG",
            State::Absent => "ABSENT",
            State::NoOrientation => "NO ORIENTATION",
            State::NoOrigin => "NO ORIGIN",
            State::Lost => "LOST",
        }
    }
}

/// What is known of a blank frame of a kind: of an old card what the archive says, whatever word it has for the orientation.
fn blank(frame: &Flawed, kind: Kind) -> State {
    let [.., turn] = frame.bits();
    match kind == Kind::New && turn > 1 {
        true => State::NoOrientation,
        false => State::NoDirection,
    }
}

/// Whether a frame says where it comes from, and that some triangle stands behind it: of every answer's frames both is proved.
fn from_somewhere(origin: Origin, behind: Option<u32>) -> bool {
    origin != Origin::NotRecorded && behind != Some(0)
}

/// Slots or records, as the archive judged them.
#[derive(Clone, Copy)]
pub struct Judged<'a> {
    pub records: &'a [Record],
    /// How wide the records are: old ones say nothing of origins, and need not.
    pub kind: Kind,
    /// Whether there is one and all are good, as the archive counts them; and, of a card, nothing else stands on it.
    pub all_good: bool,
    /// How many torn bytes the card has.
    pub torn: usize,
}

impl<'a> Judged<'a> {
    /// The state of each.
    pub fn states(self) -> impl Iterator<Item = State> + use<'a> {
        let records = self.records.iter();
        records.map(move |record| State::of(record, self.kind))
    }
}

/// A mesh and what is known of each of its slots.
pub struct Known<'a> {
    pub surface: &'a Surface,
    pub judged: Judged<'a>,
    /// Why each slot of the mesh is absent, where that was asked; else nothing.
    pub reasons: &'a [Option<Reason>],
}

impl Known<'_> {
    /// Each slot: its face and corner, and its state.
    fn states(&self) -> impl Iterator<Item = (Place, State)> {
        slots(&self.surface.sizes).zip(self.judged.states())
    }

    /// Each slot that is present, by its face and corner, with its frame.
    pub fn frames(&self) -> impl Iterator<Item = (Place, &Frame)> {
        let present = self.states().zip(self.judged.records);
        present.filter_map(|slot| match slot {
            ((place, State::Present), Record::Present(frame)) => Some((place, frame)),
            _ => None,
        })
    }

    /// Those of them whose two directions are one: they are good, and to be looked at.
    pub fn parallel(&self) -> impl Iterator<Item = Place> {
        let odd = self.frames().filter(|(_, frame)| parallel(frame));
        odd.map(|(place, _)| place)
    }

    /// The corners of each face that are in some state, face by face.
    pub fn faces(&self, state: State) -> Vec<(usize, Vec<usize>)> {
        let faces = self.told(state, |_, _| ());
        faces
            .into_iter()
            .map(|(face, (), corners)| (face, corners))
            .collect()
    }

    /// The same, of each face by what is told of a slot and its place.
    pub fn told<T: PartialEq>(
        &self,
        state: State,
        tell: impl Fn(usize, Place) -> T,
    ) -> Vec<(usize, T, Vec<usize>)> {
        let mut faces: Vec<(usize, T, Vec<usize>)> = Vec::new();
        let here = self.states().enumerate();
        for (slot, (place, _)) in here.filter(|(_, (_, here))| *here == state) {
            let told = tell(slot, place);
            let same =
                |(face, other, _): &&mut (usize, T, _)| *face == place.face && *other == told;
            // a face has no more than four corners here
            match faces.iter_mut().rev().take(4).find(same) {
                Some((_, _, corners)) => corners.push(place.corner),
                None => faces.push((place.face, told, vec![place.corner])),
            }
        }
        faces
    }

    /// The faces that take no slot: their number, counted from 0.
    pub fn without_slots(&self) -> impl Iterator<Item = usize> + Clone {
        let sizes = self.surface.sizes.iter().enumerate();
        sizes
            .filter(|(_, size)| !takes_slots(**size))
            .map(|(face, _)| face)
    }
}

/// How many records are in each state.
#[derive(Clone, Copy, Debug, Default, PartialEq, Eq)]
pub struct Tally {
    pub present: usize,
    pub no_direction: usize,
    pub too_short: usize,
    pub too_long: usize,
    pub absent: usize,
    pub no_orientation: usize,
    pub no_origin: usize,
    pub lost: usize,
    /// How many torn bytes the card has.
    pub torn: usize,
    /// Whether there is one and all are good, as the bindings say it from the archive's count, whatever is counted above.
    pub all_good: bool,
}

impl Tally {
    /// Counts records.
    pub fn of(judged: Judged) -> Tally {
        let mut tally = Tally {
            torn: judged.torn,
            all_good: judged.all_good,
            ..Tally::default()
        };
        judged
            .states()
            .for_each(|state| *tally.of_state_mut(state) += 1);
        tally
    }

    fn of_state_mut(&mut self, state: State) -> &mut usize {
        match state {
            State::Present => &mut self.present,
            State::NoDirection => &mut self.no_direction,
            State::TooShort => &mut self.too_short,
            State::TooLong => &mut self.too_long,
            State::Absent => &mut self.absent,
            State::NoOrientation => &mut self.no_orientation,
            State::NoOrigin => &mut self.no_origin,
            State::Lost => &mut self.lost,
        }
    }

    /// How many are in a state.
    pub fn count(mut self, state: State) -> usize {
        *self.of_state_mut(state)
    }

    /// How many there are.
    pub fn all(&self) -> usize {
        let bad = BAD.iter().map(|state| self.count(*state));
        self.present + bad.sum::<usize>()
    }

    /// The exit status: good only where there is a slot, all are good, nothing else is on the card, and so many faces without slots are
    /// none. What no answer has, is lost or is torn makes it worse.
    pub fn status(&self, without_slots: usize) -> Status {
        let worse = NO_ANSWERS.iter().any(|state| self.count(*state) > 0);
        match worse || self.torn > 0 {
            true => Status::Lost,
            false if self.all_good && without_slots == 0 => Status::Good,
            false => Status::Absent,
        }
    }
}
