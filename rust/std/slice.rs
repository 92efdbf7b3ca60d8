//! Reads of slices.

/// The bytes from a place on, all of which have to be there. One test of the place lets the compiler load them at once.
#[inline(always)]
pub fn array_at<const N: usize>(bytes: &[u8], place: usize) -> [u8; N] {
    let mut array = [0; N];
    array.copy_from_slice(&bytes[place..place + N]);
    array
}
