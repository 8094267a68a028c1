//! Document 01's root and document 02's angle, written plainly in Rust over whole numbers: an independent reading to compare with.
use std::f64::consts::PI;
use std::sync::LazyLock;

/// IEEE 754 square root, nearest, over whole numbers, by `u64::isqrt`. Of a negative, NaN; of -0.0, -0.0.
pub fn root(x: f32) -> f32 {
    let pattern = x.to_bits();
    if x == 0.0 || pattern == 0x7F80_0000 {
        return x;
    }
    if x.is_nan() || x < 0.0 {
        return f32::NAN;
    }
    // x is digits * 2^exponent
    let (digits, exponent) = match pattern >> 23 {
        0 => (u64::from(pattern), -149),
        field => (
            u64::from(pattern & 0x7F_FFFF | 0x80_0000),
            field as i32 - 150,
        ),
    };
    // 47 or 48 digits with an even exponent, so that the root has 24
    let up = digits.leading_zeros() as i32 - 17;
    let odd = (exponent - up) & 1;
    let n = digits << (up + odd);
    let half = (exponent - up - odd) / 2;
    let whole = n.isqrt();
    let nearest = whole + u64::from(n - whole * whole > whole);
    f32::from_bits((nearest as u32 & 0x7F_FFFF) | ((half + 150) as u32) << 23)
}

/// c(k), the whole number nearest to 2^30 times the cosine of k/1024 of a half turn.
static COSINES: LazyLock<[i32; 1025]> = LazyLock::new(|| {
    std::array::from_fn(|k| ((k as f64 * PI / 1024.0).cos() * 1_073_741_824.0).round() as i32)
});

/// X of document 01: a number from -1 to 1, times 2^30, toward zero.
fn scaled(cosine: f32) -> i32 {
    (cosine * 1_073_741_824.0) as i32
}

/// A of a number from -1 to 1, by document 01's rule.
pub fn old_way(cosine: f32) -> u32 {
    let (c, x) = (&*COSINES, scaled(cosine));
    let k = c[..1024].partition_point(|&entry| entry >= x) - 1;
    let part = (((c[k] - x) as u64) << 20) / (c[k] - c[k + 1]) as u64;
    ((k as u32) << 20) + part as u32
}

/// A of a number from -1 to 1, amended by request E3 of document 02.
pub fn amended_way(x: f32) -> u32 {
    if x.abs() <= 0.5 {
        return old_way(x);
    }
    let b = old_way(root((1.0 - x.abs()) / 2.0));
    if x > 0.0 { (1 << 30) - 2 * b } else { 2 * b }
}

/// The angle that an A stands for: its top 24 digits, times 31490FDB.
pub fn angle_of_way(a: u32) -> f32 {
    let dropped = 8u32.saturating_sub(a.leading_zeros());
    (a >> dropped << dropped) as f32 * f32::from_bits(0x3149_0FDB)
}

/// The angle of a cosine.
pub fn angle(x: f32) -> f32 {
    if x.is_nan() {
        x
    } else {
        angle_of_way(amended_way(x.clamp(-1.0, 1.0)))
    }
}

/// Document 01's samples 7 to 9 and the rules of its table.
#[test]
fn samples() {
    let word = |x: u32, f: fn(f32) -> f32| f(f32::from_bits(x)).to_bits();
    assert_eq!(word(0x4000_0000, root), 0x3FB5_04F3);
    assert_eq!(word(0x4080_0000, root), 0x4000_0000);
    assert_eq!(
        [0x3F80_0000, 0, 0xBF80_0000].map(|x| word(x, angle)),
        [0, 0x3FC9_0FDB, 0x4049_0FDB]
    );
    let whole =
        [0x3F35_04F3, 0xBF35_04F3, 0x3000_0000, 0x8000_0000].map(|x| scaled(f32::from_bits(x)));
    assert_eq!(whole, [759_250_112, -759_250_112, 0, 0]);
    let c = &*COSINES;
    assert_eq!([c[0], c[1024]], [1 << 30, -(1 << 30)]);
    assert!(c.windows(2).all(|c| c[0] > c[1]));
    assert!((0..=1024).all(|k| c[1024 - k] == -c[k]));
    let doubled = |k: usize| {
        let (a, b) = (i128::from(c[k]), i128::from(c[2 * k]));
        (2 * a * a - (1 << 30) * (b + (1 << 30))).abs()
    };
    assert!((0..=512).all(|k| doubled(k) <= 3 << 30));
}

/// The root of every 4,099th pattern is the processor's.
#[test]
fn roots_are_the_processor_s() {
    let word = |x: f32| if x.is_nan() { None } else { Some(x.to_bits()) };
    for pattern in (0..=u32::MAX).step_by(4099) {
        let x = f32::from_bits(pattern);
        assert_eq!(word(root(x)), word(x.sqrt()), "{pattern:08X}");
    }
}
