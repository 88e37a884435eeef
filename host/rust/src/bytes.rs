//! Little-endian floats in bytes.

/// The float whose bytes begin at a place.
pub(crate) fn float_at(bytes: &[u8], place: usize) -> f32 {
    f32::from_le_bytes([bytes[place], bytes[place + 1], bytes[place + 2], bytes[place + 3]])
}

/// The bytes of floats, one after another; zeros after the last one.
pub(crate) fn of_floats<const N: usize>(floats: impl IntoIterator<Item = f32>) -> [u8; N] {
    let mut bytes = [0; N];
    for (place, float) in bytes.chunks_exact_mut(4).zip(floats) {
        place.copy_from_slice(&float.to_le_bytes());
    }
    bytes
}
