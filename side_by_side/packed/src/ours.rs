//! The calls of the proved archive, each counted as answered by it.
use crate::lent::answered;
use crate::plain::Said;
use dokphalun_sys as archive;

/// An answer list packed.
pub fn pack(answer: &[u32], packed: &mut [i16]) -> Said {
    let said = answered(archive::pack(answer, packed));
    (said.number, said.count)
}

/// A packed list read.
pub fn unpack(packed: &[i16], answer: &mut [u32]) -> Said {
    let said = answered(archive::unpack(packed, answer));
    (said.number, said.place)
}
