//! From texture coordinates to places on the page, and the scales beside them.
use std::fmt::Write;

/// The page: its width, and what stands around the field.
pub const WIDE: f64 = 1200.0;
pub const LEFT: f64 = 64.0;
const RIGHT: f64 = 28.0;
pub const TOP: f64 = 146.0;
const BOTTOM: f64 = 56.0;
/// The greatest height of the field, and its height where both scales differ.
const HIGH: f64 = 820.0;
const STRETCHED: f64 = 420.0;
/// The greatest ratio of the sides that is drawn with one scale.
const RATIO: f64 = 5.0;

/// What a stroke shows.
const NOTE: &str = "a stroke is a tangent in its face's own texture coordinates: level, or turned by its neighbours";

/// The part of the texture plane that is drawn.
pub struct Plane {
    low: [f64; 2],
    span: [f64; 2],
    /// Units of the page for one of s and one of t.
    scale: [f64; 2],
}

impl Plane {
    /// The part that holds all finite coordinates.
    pub fn of(texture: &[[f32; 2]]) -> Plane {
        let finite = texture
            .iter()
            .filter(|pair| pair.iter().all(|number| number.is_finite()));
        let ends = [0, 1].map(|i| {
            let numbers = finite.clone().map(|pair| f64::from(pair[i]));
            numbers.fold([f64::INFINITY, f64::NEG_INFINITY], |[low, high], x| {
                [low.min(x), high.max(x)]
            })
        });
        let largest = ends
            .iter()
            .map(|[low, high]| high - low)
            .fold(0.0, f64::max);
        let [(s, wide), (t, high)] = ends.map(|ends| with_room(ends, largest));
        let page = WIDE - LEFT - RIGHT;
        let one = (page / wide).min(HIGH / high);
        let scale = match (1.0 / RATIO..=RATIO).contains(&(wide / high)) {
            true => [one, one],
            false => [page / wide, STRETCHED / high],
        };
        Plane {
            low: [s, t],
            span: [wide, high],
            scale,
        }
    }

    /// The width and height of the field.
    fn field(&self) -> [f64; 2] {
        [self.span[0] * self.scale[0], self.span[1] * self.scale[1]]
    }

    /// The height of the page.
    pub fn page_height(&self) -> f64 {
        TOP + self.field()[1] + BOTTOM
    }

    /// Whether one unit of s is as long as one of t.
    pub fn true_to_scale(&self) -> bool {
        self.scale[0] == self.scale[1]
    }

    /// Where texture coordinates stand on the page; t grows upwards.
    pub fn at(&self, pair: [f32; 2]) -> [f64; 2] {
        let [s, t] = [0, 1].map(|i| (f64::from(pair[i]) - self.low[i]) * self.scale[i]);
        [LEFT + s, TOP + self.field()[1] - t]
    }

    /// The direction on the page of a direction in the texture plane, of length 1; none where it has none.
    pub fn direction(&self, [s, t]: [f64; 2]) -> Option<[f64; 2]> {
        let (x, y) = (s * self.scale[0], -t * self.scale[1]);
        let length = x.hypot(y);
        (length.is_normal()).then(|| [x / length, y / length])
    }

    /// The field's frame, lines at round numbers and their names.
    pub fn grid(&self) -> String {
        let [wide, high] = self.field();
        let (bottom, right) = (TOP + high, LEFT + wide);
        let (mut lines, mut names) = (String::new(), String::new());
        for s in rounds(self.low[0], self.span[0], wide / 90.0) {
            let x = LEFT + (s - self.low[0]) * self.scale[0];
            let _ = write!(lines, "M{x:.1} {TOP}V{bottom:.1}");
            names.push_str(&text([x, bottom + 18.0], "middle", &short(s)));
        }
        for t in rounds(self.low[1], self.span[1], high / 70.0) {
            let y = bottom - (t - self.low[1]) * self.scale[1];
            let _ = write!(lines, "M{LEFT} {y:.1}H{right:.1}");
            names.push_str(&text([LEFT - 8.0, y + 4.0], "end", &short(t)));
        }
        names.push_str(&text([right, bottom + 42.0], "end", "s"));
        names.push_str(&text([LEFT - 46.0, TOP + 12.0], "middle", "t"));
        names.push_str(&text([LEFT, bottom + 42.0], "start", NOTE));
        format!(
            r##"<rect x="{LEFT}" y="{TOP}" width="{wide:.1}" height="{high:.1}" fill="#ffffff" stroke="#94a3b8"/><path d="{lines}" stroke="#e2e8f0" fill="none"/>{names}
"##
        )
    }
}

/// The low end and the length of a stretch with some room around it; so long is the longest, where this one is a point.
fn with_room([low, high]: [f64; 2], longest: f64) -> (f64, f64) {
    let span = high - low;
    match (span > 0.0, low.is_finite()) {
        (true, _) => (low - span * 0.02, span * 1.04),
        (false, true) => {
            let room = if longest > 0.0 { longest / 4.0 } else { 1.0 };
            (low - room / 2.0, room)
        }
        (false, false) => (0.0, 1.0),
    }
}

/// A word beside the field.
fn text([x, y]: [f64; 2], anchor: &str, word: &str) -> String {
    format!(r##"<text x="{x:.1}" y="{y:.1}" text-anchor="{anchor}">{word}</text>"##)
}

/// Round numbers in a range, about so many.
fn rounds(low: f64, span: f64, about: f64) -> Vec<f64> {
    let rough = span / about.clamp(2.0, 14.0);
    let ten = 10f64.powf(rough.log10().floor());
    let step = [1.0, 2.0, 5.0]
        .into_iter()
        .map(|m| m * ten)
        .find(|step| *step >= rough)
        .unwrap_or(10.0 * ten);
    let first = (low / step).ceil();
    let numbers = (0..20).map(|i| (first + f64::from(i)) * step);
    numbers.filter(|number| *number <= low + span).collect()
}

/// A round number as short text.
fn short(number: f64) -> String {
    let text = format!("{number:.6}");
    match number.abs() {
        0.0 => "0".into(),
        size if !(1e-4..1e6).contains(&size) => format!("{number:.1e}"),
        _ => text.trim_end_matches('0').trim_end_matches('.').into(),
    }
}
