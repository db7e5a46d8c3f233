//! Big-endian fields in buffers. A field beyond a buffer's end reads as zero, so that no read can
//! panic; the buffers here have the sizes of `include/sif.h`, and their fields lie inside.

/// The byte at a place.
pub fn u8_at(bytes: &[u8], at: usize) -> u8 {
    bytes.get(at).copied().unwrap_or(0)
}

/// The two bytes from a place on.
pub fn u16_at(bytes: &[u8], at: usize) -> u16 {
    u16::from_be_bytes([u8_at(bytes, at), u8_at(bytes, at + 1)])
}

/// The eight bytes from a place on.
pub fn u64_at(bytes: &[u8], at: usize) -> u64 {
    (at..at + 8).fold(0, |number, i| number << 8 | u64::from(u8_at(bytes, i)))
}

/// So many bytes from a place on; none where they are not all there.
pub fn part(bytes: &[u8], at: usize, length: usize) -> &[u8] {
    bytes.get(at..at + length).unwrap_or(&[])
}
