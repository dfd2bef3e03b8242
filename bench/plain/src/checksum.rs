//! A number that all that was found goes into, in order.

/// The checksum after one more value.
pub fn mixed(sum: u64, value: u64) -> u64 {
    sum.wrapping_mul(31).wrapping_add(value)
}

/// The same after a place or a length.
pub fn mixed_place(sum: u64, place: usize) -> u64 {
    mixed(sum, place as u64)
}
