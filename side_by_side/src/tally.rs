//! What a run over many cases saw.
use crate::compare::Seen;
use crate::mesh::{Case, SLOT_WORDS};
use std::fmt::{Display, Formatter, Result};

/// Counts over cases.
#[derive(Default)]
pub struct Tally {
    pub compared: u64,
    pub differed: u64,
    /// Accepted, and refused with 1 to 7.
    numbers: [u64; 8],
    /// Left out beside the crate and compared with its altered copy: a vector without a direction was met (request E6).
    amended: u64,
    faces: u64,
    shuffles: u64,
    slots: u64,
    absent: u64,
    /// Slots by where they came from, absent ones among them (request E7).
    origins: [u64; 5],
    /// The most triangles that stood behind one.
    most_behind: u32,
    mirrored: u64,
    not_a_number: u64,
    infinite: u64,
    /// Slots with a direction that is no finite number: none since request E6.
    boundless: u64,
    /// The greatest component of a direction, in size.
    greatest: f32,
}

impl Tally {
    /// Counts one case more.
    pub fn count(&mut self, case: &Case, seen: &Seen) {
        self.compared += 1;
        self.differed += u64::from(seen.difference.is_some());
        self.numbers[seen.number as usize] += 1;
        self.amended += u64::from(seen.amended);
        self.faces += case.mesh.sizes.len() as u64;
        self.shuffles += u64::from(seen.shuffled);
        seen.frames
            .chunks(SLOT_WORDS)
            .for_each(|slot| self.count_slot(slot));
    }

    /// Counts the words of a slot.
    fn count_slot(&mut self, slot: &[u32]) {
        let numbers = || slot[1..9].iter().map(|&word| f32::from_bits(word));
        self.slots += 1;
        self.absent += u64::from(slot[0] == 0);
        self.origins[slot[10] as usize] += 1;
        self.most_behind = self.most_behind.max(slot[11]);
        self.mirrored += u64::from(slot[0] == 1 && slot[9] == 0);
        self.not_a_number += u64::from(numbers().any(f32::is_nan));
        self.infinite += u64::from(numbers().any(f32::is_infinite));
        self.boundless += u64::from(numbers().take(6).any(|x| !x.is_finite()));
        self.greatest = numbers()
            .take(6)
            .map(f32::abs)
            .fold(self.greatest, f32::max);
    }

    /// Adds the counts of another run.
    pub fn add(&mut self, other: &Tally) {
        let pairs = [
            (&mut self.compared, other.compared),
            (&mut self.differed, other.differed),
            (&mut self.amended, other.amended),
            (&mut self.faces, other.faces),
            (&mut self.shuffles, other.shuffles),
            (&mut self.slots, other.slots),
            (&mut self.absent, other.absent),
            (&mut self.mirrored, other.mirrored),
            (&mut self.not_a_number, other.not_a_number),
            (&mut self.infinite, other.infinite),
            (&mut self.boundless, other.boundless),
        ];
        pairs.into_iter().for_each(|(sum, more)| *sum += more);
        self.greatest = self.greatest.max(other.greatest);
        self.most_behind = self.most_behind.max(other.most_behind);
        let numbers = self.numbers.iter_mut().zip(other.numbers);
        let origins = self.origins.iter_mut().zip(other.origins);
        numbers.chain(origins).for_each(|(sum, more)| *sum += more);
    }
}

impl Display for Tally {
    /// One line.
    fn fmt(&self, line: &mut Formatter) -> Result {
        let [accepted, refused @ ..] = self.numbers;
        write!(
            line,
            "{} compared, {} differed; ",
            self.compared, self.differed
        )?;
        write!(
            line,
            "{accepted} accepted, refused with 1 to 7: {refused:?}; "
        )?;
        write!(line, "{} of them beside the altered copy; ", self.amended)?;
        let [_, single, combined, copied, filled] = self.origins;
        write!(
            line,
            "{} faces, {} slots: {} absent, {single} single, {combined} combined, {copied} copied to a degenerate corner, {filled} copied within a quad, with up to {} triangles behind them; {} mirrored, ",
            self.faces, self.slots, self.absent, self.most_behind, self.mirrored
        )?;
        write!(
            line,
            "{} with a NaN, {} with an infinity, {} of them in a direction, whose components are up to {}",
            self.not_a_number, self.infinite, self.boundless, self.greatest
        )?;
        if self.shuffles > 0 {
            write!(
                line,
                "; {} shuffles, each also face by face as alone",
                self.shuffles
            )?;
        }
        Ok(())
    }
}
