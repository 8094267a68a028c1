//! The packed frames of request E5, written and read plainly, from the request's text alone, in exact integers.

/// The words of a slot.
pub const SLOT: usize = 12;
/// The numbers of a packed slot.
pub const SEVEN: usize = 7;
/// The words that are read of a packed slot.
pub const READ: usize = 8;
/// The number that stands where there is nothing.
pub const NOTHING: i16 = -32_768;

/// What a call returns: 0 and a count, or the number of a refusal and a place.
pub type Said = (u32, usize);

/// The whole number nearest to 32,767 |c|, ties to even, for |c| of these bits, at most 1.
fn nearest(size: u32) -> u128 {
    let (exponent, fraction) = (size >> 23, size & 0x7F_FFFF);
    // |c| is whole / 2 ^ places
    let (whole, places) = match exponent {
        0 => (fraction, 149),
        _ => (fraction | 1 << 23, 150 - exponent),
    };
    let times = 32_767 * u128::from(whole);
    // past 2 ^ 60 a part is less than half for sure, since `times` is below 2 ^ 39
    let parts = 1u128 << places.min(60);
    let down = times / parts;
    let [to_down, to_up] = [times - down * parts, (down + 1) * parts - times];
    match to_down.cmp(&to_up) {
        std::cmp::Ordering::Less => down,
        std::cmp::Ordering::Greater => down + 1,
        std::cmp::Ordering::Equal => down + down % 2,
    }
}

/// A component from its bits; nothing where it is NaN or beyond 3F800008.
pub fn component(bits: u32) -> Option<i16> {
    let size = bits & 0x7FFF_FFFF;
    if size > 0x3F80_0008 {
        return None;
    }
    let number = nearest(size.min(0x3F80_0000)) as i16;
    Some(if bits >> 31 == 1 { -number } else { number })
}

/// The seven numbers of a slot that has a frame.
fn frame(slot: &[u32]) -> Option<[i16; SEVEN]> {
    let orientation = match (slot[0], slot[9]) {
        (1, 1) => 1,
        (1, 0) => -1,
        _ => return None,
    };
    let mut seven = [orientation; SEVEN];
    for (number, bits) in seven.iter_mut().zip(&slot[1..=6]) {
        *number = component(*bits)?;
    }
    Some(seven)
}

/// An answer list packed.
pub fn pack(answer: &[u32], packed: &mut [i16]) -> Said {
    let slots = answer.chunks_exact(SLOT);
    if !slots.remainder().is_empty() {
        return (1, 0);
    }
    let count = slots.len() * SEVEN;
    let Some(packed) = packed.get_mut(..count) else {
        return (2, 0);
    };
    for (seven, slot) in packed.chunks_exact_mut(SEVEN).zip(slots) {
        seven.copy_from_slice(&frame(slot).unwrap_or([NOTHING; SEVEN]));
    }
    (0, count)
}

/// The words of a seven; nothing where the packer can't write it.
pub fn read(seven: &[i16]) -> Option<[u32; READ]> {
    let mut words = [0; READ];
    for (word, number) in words[1..].iter_mut().zip(seven) {
        *word = i32::from(*number) as u32;
    }
    let (six, orientation) = (&seven[..6], seven[6]);
    if seven.iter().all(|number| *number == NOTHING) {
        return Some(words);
    }
    if six.contains(&NOTHING) || ![1, -1].contains(&orientation) {
        return None;
    }
    words[0] = 1;
    words[READ - 1] = u32::from(orientation == 1);
    Some(words)
}

/// A packed list read.
pub fn unpack(packed: &[i16], answer: &mut [u32]) -> Said {
    let sevens = packed.chunks_exact(SEVEN);
    if !sevens.remainder().is_empty() {
        return (1, 0);
    }
    let Some(answer) = answer.get_mut(..sevens.len() * READ) else {
        return (2, 0);
    };
    if let Some(place) = sevens.clone().position(|seven| read(seven).is_none()) {
        return (3, place);
    }
    for (words, seven) in answer.chunks_exact_mut(READ).zip(sevens) {
        words.copy_from_slice(&read(seven).unwrap_or_default());
    }
    (0, 0)
}
