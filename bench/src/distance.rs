//! How far the angle is from the arc cosine, by document 01's rule and by request E3's.
//!
//! The measure is `f64::acos` of the cosine, which is exact as an f64. It is the C library's, said to be off by less than two units in the
//! last place, below 1e-15 radians: a unit of A, 2^-30 of a half turn, is 2.9e-9, so that the measure is off by less than a
//! millionth of a unit. Since nothing proves that, each 4,096th one is held against another formula, and the greatest gap is printed.
use models::leaves::{amended_way, angle_of_way, old_way};
use std::f64::consts::PI;

/// Units of A in a half turn, and in a step of the table.
const HALF_TURN: f64 = 1_073_741_824.0;
const STEP: f64 = 1_048_576.0;

/// The greatest of some distances, and the cosine that has it.
#[derive(Clone, Copy, Default)]
struct Greatest {
    distance: f64,
    cosine: f32,
}

impl Greatest {
    fn take(&mut self, distance: f64, cosine: f32) {
        if distance > self.distance {
            *self = Greatest { distance, cosine };
        }
    }
}

/// What is kept of a rule: the greatest distance of A, of A where the cosine is at most 1/2 in size, and of the angle in units of its last
/// place; and the pairs of neighbouring cosines of which the greater has the greater A.
#[derive(Default)]
struct Rule {
    way: Greatest,
    wide: Greatest,
    last_place: Greatest,
    rises: u64,
    first_rise: Option<(f32, u32, u32)>,
    before: Option<u32>,
}

impl Rule {
    /// Takes the A of a cosine, which is greater than the ones before.
    fn take(&mut self, x: f32, a: u32, exact: f64) {
        let off = (f64::from(a) - exact / PI * HALF_TURN).abs();
        self.way.take(off, x);
        if x.abs() <= 0.5 {
            self.wide.take(off, x);
        }
        self.last_place.take(
            (f64::from(angle_of_way(a)) - exact).abs() / last_place(exact as f32),
            x,
        );
        if self.before.is_some_and(|b| b < a) {
            self.rises += 1;
            self.first_rise = self.first_rise.or(self.before.map(|b| (x, b, a)));
        }
        self.before = Some(a);
    }

    fn print(&self, name: &str) {
        for (of, g) in [("A", self.way), ("A up to 1/2 in size", self.wide)] {
            println!(
                "{name}, {of}: {:.1} units, {:.6} steps, {:.2e} radians, at {:08X}",
                g.distance,
                g.distance / STEP,
                g.distance / HALF_TURN * PI,
                g.cosine.to_bits()
            );
        }
        let g = self.last_place;
        println!(
            "{name}, the angle: {:.1} units of its last place, at {:08X}",
            g.distance,
            g.cosine.to_bits()
        );
        println!("{name}: A rises with the cosine at {} places", self.rises);
        if let Some((x, b, a)) = self.first_rise {
            println!(
                "{name}: the first of them is {:08X}, from {b} to {a}",
                x.to_bits()
            );
        }
    }
}

/// The unit in the last place of a number of binary32 that is not negative.
fn last_place(x: f32) -> f64 {
    f64::from(f32::from_bits(x.to_bits() + 1)) - f64::from(x)
}

/// Every `step`-th cosine from -1 to 1, rising, zeros of both signs among them.
fn cosines(step: usize) -> impl Iterator<Item = f32> {
    let one = 1f32.to_bits();
    let below = (0..=one).rev().step_by(step).map(|p| -f32::from_bits(p));
    below.chain((0..=one).step_by(step).map(f32::from_bits))
}

/// Prints the distances of both rules over every `step`-th cosine.
pub fn report(step: usize) {
    let (mut old, mut new) = (Rule::default(), Rule::default());
    let (mut gap, mut count) = (0f64, 0u64);
    for x in cosines(step) {
        let wide = f64::from(x);
        let exact = wide.acos();
        if count % 4096 == 0 {
            // both factors are exact
            gap = gap.max((exact - ((1.0 - wide) * (1.0 + wide)).sqrt().atan2(wide)).abs());
        }
        old.take(x, old_way(x), exact);
        new.take(x, amended_way(x), exact);
        count += 1;
    }
    println!(
        "{count} cosines; the two formulas of the arc cosine differ by at most {gap:.1e} radians"
    );
    old.print("before");
    new.print("after");
}
