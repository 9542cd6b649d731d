//! "All fields of a job are little-endian, u8, u16, u32 or f64."

/// The bytes from `at`, as many as the field is wide.
fn bytes_at<const WIDTH: usize>(bytes: &[u8], at: usize) -> [u8; WIDTH] {
    let mut field = [0; WIDTH];
    field.copy_from_slice(&bytes[at..at + WIDTH]);
    field
}

pub fn u16_at(bytes: &[u8], at: usize) -> u16 {
    u16::from_le_bytes(bytes_at(bytes, at))
}

pub fn u32_at(bytes: &[u8], at: usize) -> u32 {
    u32::from_le_bytes(bytes_at(bytes, at))
}

pub fn f64_at(bytes: &[u8], at: usize) -> f64 {
    f64::from_bits(u64::from_le_bytes(bytes_at(bytes, at)))
}

/// Every f64 of a part that holds nothing else.
pub fn all_f64(bytes: &[u8]) -> Vec<f64> {
    bytes.chunks_exact(8).map(|field| f64_at(field, 0)).collect()
}
