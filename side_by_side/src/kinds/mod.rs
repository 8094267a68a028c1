//! The kinds of cases.
mod big;
mod extreme;
mod faces;
mod largest;
mod limits;
mod magnitudes;
mod needle;
mod numbers;
mod one;
mod refused;
mod sheets;
mod shuffle;
mod small;
mod zeros;

use crate::mesh::Case;
use crate::random::Random;

/// A kind of cases.
pub struct Kind {
    pub name: &'static str,
    /// How many cases there are, where they can be counted off.
    pub all: Option<u64>,
    /// How many are compared unless another count is asked for, and in the gate.
    pub usual: u64,
    pub gate: u64,
    /// Makes the case of a number.
    make: fn(&mut Random, u64) -> Case,
}

impl Kind {
    /// Case number `i`; cases that can be counted off are taken in an order that is spread over all of them.
    pub fn case(&self, seed: u64, i: u64) -> Case {
        // a prime that divides no count of cases
        const STRIDE: u128 = 2_654_435_761;
        let number = self
            .all
            .map_or(i, |all| (u128::from(i) * STRIDE % u128::from(all)) as u64);
        (self.make)(&mut Random::of(seed, self.name, number), number)
    }

    /// How many cases there are for a count that was asked for.
    pub fn bounded(&self, count: u64) -> u64 {
        self.all.map_or(count, |all| all.min(count))
    }
}

/// The kind of a name.
pub fn named(name: &str) -> &'static Kind {
    let kind = KINDS.iter().find(|kind| kind.name == name);
    kind.expect("a kind")
}

/// Every kind.
pub static KINDS: [Kind; 12] = [
    Kind {
        name: "one",
        all: Some(one::ALL),
        usual: one::ALL,
        gate: 200_000,
        make: one::make,
    },
    Kind {
        name: "mesh",
        all: None,
        usual: 200_000,
        gate: 20_000,
        make: small::make,
    },
    Kind {
        name: "zeros",
        all: None,
        usual: 100_000,
        gate: 20_000,
        make: zeros::make,
    },
    Kind {
        name: "magnitudes",
        all: None,
        usual: 100_000,
        gate: 20_000,
        make: magnitudes::make,
    },
    Kind {
        name: "extreme",
        all: None,
        usual: 100_000,
        gate: 20_000,
        make: extreme::make,
    },
    Kind {
        name: "needle",
        all: None,
        usual: 100_000,
        gate: 20_000,
        make: needle::make,
    },
    Kind {
        name: "refused",
        all: None,
        usual: 100_000,
        gate: 4_000,
        make: refused::make,
    },
    Kind {
        name: "limits",
        all: Some(limits::ALL),
        usual: limits::ALL,
        gate: 2_000,
        make: limits::make,
    },
    Kind {
        name: "largest",
        all: Some(largest::ALL),
        usual: largest::ALL,
        gate: largest::ALL,
        make: largest::make,
    },
    Kind {
        name: "fans",
        all: Some(largest::ALL_FANS),
        usual: largest::ALL_FANS,
        gate: 0,
        make: largest::fan,
    },
    Kind {
        name: "big",
        all: None,
        usual: 200,
        gate: 40,
        make: big::make,
    },
    Kind {
        name: "shuffle",
        all: None,
        usual: 50_000,
        gate: 10_000,
        make: shuffle::make,
    },
];
