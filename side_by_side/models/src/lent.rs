//! Lent lists: two calls on the same lists, compared, every element, also outside what was lent. Ours has to be one of the archive's: whoever
//! makes such a call says so (`answered`), and a plain call in its place is noticed.
use crate::random::Random;
use std::cell::Cell;
use std::fmt::Debug;

/// How many elements stand on each side of a lent list.
const GUARD: usize = 24;

/// What a call says, and its list.
pub type Left<T, S> = (S, Vec<T>);

/// What is altered of ours on purpose, to show that the comparison notices it.
#[derive(Clone, Copy, Debug, PartialEq)]
pub enum Spoil {
    /// A part of what it says.
    Said(usize),
    /// The element before the lent list.
    Before,
    /// The first element of the lent list.
    First,
    /// The last element of the lent list.
    Last,
    /// The element past the lent list.
    Past,
}

/// All of them, for a call that says three numbers or fewer.
pub const SPOILS: [Spoil; 7] = [
    Spoil::Said(0),
    Spoil::Said(1),
    Spoil::Said(2),
    Spoil::Before,
    Spoil::First,
    Spoil::Last,
    Spoil::Past,
];

/// What can be spoiled: a bit of some part of it is turned.
pub trait Turn {
    /// Turns a bit of this part, counted from 0; of the last one where there are fewer.
    fn turn(&mut self, part: usize);
}

/// Elements have one part.
macro_rules! elements {
    ($($element:ty),*) => {
        $(impl Turn for $element {
            fn turn(&mut self, _: usize) {
                *self ^= 1;
            }
        })*
    };
}
elements!(u8, u32, i16, usize);

impl<A: Turn, B: Turn> Turn for (A, B) {
    fn turn(&mut self, part: usize) {
        match part {
            0 => self.0.turn(0),
            _ => self.1.turn(0),
        }
    }
}

impl<A: Turn, B: Turn, C: Turn> Turn for (A, B, C) {
    fn turn(&mut self, part: usize) {
        match part {
            0 => self.0.turn(0),
            1 => self.1.turn(0),
            _ => self.2.turn(0),
        }
    }
}

impl Spoil {
    /// Alters what a call on so many lent elements left.
    fn put<T: Turn, S: Turn>(self, (said, list): &mut Left<T, S>, count: usize) {
        match self {
            Spoil::Said(part) => said.turn(part),
            Spoil::Before => list[GUARD - 1].turn(0),
            Spoil::First => list[GUARD].turn(0),
            Spoil::Last => list[GUARD + count - 1].turn(0),
            Spoil::Past => list[GUARD + count].turn(0),
        }
    }
}

thread_local! {
    /// What is spoiled in this thread's comparisons.
    static SPOILED: Cell<Option<Spoil>> = const { Cell::new(None) };
    /// How many calls of this thread the archive has answered.
    static ANSWERED: Cell<u64> = const { Cell::new(0) };
}

/// Counts a call that the archive has answered, and hands on what it said: to be given the archive's own word, and no other.
pub fn answered<T>(said: T) -> T {
    ANSWERED.set(ANSWERED.get() + 1);
    said
}

/// A call that has to be answered by the archive so many times, once for ours and never for a plain one.
pub fn asked<T>(times: u64, call: impl FnOnce() -> T) -> Result<T, String> {
    let before = ANSWERED.get();
    let said = call();
    match ANSWERED.get() - before {
        seen if seen == times => Ok(said),
        seen => Err(format!(
            "the archive answered {seen} times, and not {times}"
        )),
    }
}

/// Sees that a comparison finds nothing as it is, and something with each word spoiled; how many that were.
pub fn each_noticed(name: &str, compare: impl Fn() -> Result<(), String>) -> Result<usize, String> {
    compare()?;
    for spoil in SPOILS {
        SPOILED.set(Some(spoil));
        let found = compare();
        SPOILED.set(None);
        if found.is_ok() {
            return Err(format!("{name}: {spoil:?} is spoiled, and not noticed"));
        }
    }
    Ok(SPOILS.len())
}

/// The length of a lent list near the one that is needed: that, one less, any less, or fewer than `more` more.
pub fn room(random: &mut Random, need: usize, more: usize) -> usize {
    match random.below(8) {
        0 => need.saturating_sub(1),
        1 => random.below(need + 1),
        2 => need + random.below(more),
        _ => need,
    }
}

/// A call on `count` lent elements between two guards; what it says, and the list with both guards.
fn lent<T, S>(fill: fn(usize) -> T, count: usize, call: impl Fn(&mut [T]) -> S) -> Left<T, S> {
    let mut list: Vec<T> = (0..count + 2 * GUARD).map(fill).collect();
    let said = call(&mut list[GUARD..GUARD + count]);
    (said, list)
}

/// What both calls leave between the guards, if all is the same; else what differs.
pub fn same<T: PartialEq + Debug + Turn, S: PartialEq + Debug + Turn>(
    fill: fn(usize) -> T,
    count: usize,
    plain: impl Fn(&mut [T]) -> S,
    ours: impl Fn(&mut [T]) -> S,
) -> Result<Left<T, S>, String> {
    let plain = asked(0, || lent(fill, count, plain)).map_err(|what| format!("plain: {what}"))?;
    let mut ours = asked(1, || lent(fill, count, ours)).map_err(|what| format!("ours: {what}"))?;
    if let Some(spoil) = SPOILED.get() {
        spoil.put(&mut ours, count);
    }
    if plain.0 != ours.0 {
        return Err(format!("plain says {:?}, ours {:?}", plain.0, ours.0));
    }
    if let Some(i) = (0..plain.1.len()).find(|&i| plain.1[i] != ours.1[i]) {
        let [plain, ours] = [&plain.1[i], &ours.1[i]];
        let place = i as isize - GUARD as isize;
        return Err(format!(
            "element {place} is {plain:?} by the plain one, {ours:?} by ours"
        ));
    }
    let (said, mut list) = ours;
    list.truncate(list.len() - GUARD);
    Ok((said, list.split_off(GUARD)))
}
