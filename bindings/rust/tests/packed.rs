//! Packed frames through the archive.
use dokphalun::{PackRefusal, Packed, pack, unpack};

/// A slot with this tangent x and this bi-tangent y, and an orientation.
fn with_both(x: f32, y: f32, orientation: u32) -> [u32; 12] {
    let (x, y) = (x.to_bits(), y.to_bits());
    [1, x, 0, 0, 0, y, 0, 0, 0, orientation, 1, 1]
}

/// A slot with this tangent x, a bi-tangent of length 1, and an orientation.
fn slot(x: f32, orientation: u32) -> [u32; 12] {
    with_both(x, 1.0, orientation)
}

#[test]
fn frames_are_packed_and_read() {
    let words = [slot(1.0, 1), slot(-0.5, 0), [0; 12], slot(f32::NAN, 1)].concat();
    let mut packed = Vec::new();
    pack(&words, &mut packed).unwrap();
    assert_eq!(packed[..7], [32767, 0, 0, 0, 32767, 0, 1]);
    assert_eq!(packed[7..14], [-16384, 0, 0, 0, 32767, 0, -1]);
    assert_eq!(packed[14..], [-32768; 14]);
    let read = unpack(&packed).unwrap();
    let first = Packed::Present {
        directions: [32767, 0, 0, 0, 32767, 0],
        preserving: true,
    };
    assert_eq!(read[0], first);
    assert_eq!(read[2..], [Packed::Absent; 2]);
}

#[test]
fn a_direction_of_three_zeros_is_never_present() {
    // too short to be packed, and the next number, which is not
    let (short, least) = (f32::from_bits(0x3780_0100), f32::from_bits(0x3780_0101));
    let cases = [
        (0.0, 0.0),
        (0.0, 1.0),
        (1.0, 0.0),
        (-0.0, 1.0),
        (1.0, short),
    ];
    let words = cases.map(|(x, y)| with_both(x, y, 1)).concat();
    let mut packed = Vec::new();
    pack(&words, &mut packed).unwrap();
    assert_eq!(packed[..7], [0, 0, 0, 0, 0, 0, 1]);
    assert_eq!(unpack(&packed).unwrap(), [Packed::NoDirection; 5]);
    pack(&with_both(1.0, least, 0), &mut packed).unwrap();
    let directions = [32767, 0, 0, 0, 1, 0];
    let preserving = false;
    let wanted = Packed::Present {
        directions,
        preserving,
    };
    assert_eq!(unpack(&packed).unwrap(), [wanted]);
}

#[test]
fn packing_refuses() {
    let mut packed = vec![1];
    assert_eq!(pack(&[1; 13], &mut packed), Err(PackRefusal::NotSlots));
    assert!(packed.is_empty());
    assert_eq!(unpack(&[0; 6]), Err(PackRefusal::NotSlots));
    let second = [[0, 0, 0, 0, 0, 0, 1], [0; 7]].concat();
    assert_eq!(unpack(&second), Err(PackRefusal::NotPacked { slot: 1 }));
}
