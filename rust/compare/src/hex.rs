//! Bytes as they are told with a difference.

/// The longest bytes that are told whole: twice the longest code.
const MOST: usize = 16 * 1024;

/// Far longer ones come from a part that makes them again.
pub fn hex(bytes: &[u8]) -> String {
    let digits = |bytes: &[u8]| bytes.iter().map(|byte| format!("{byte:02x}")).collect::<String>();
    match bytes.len() {
        0 => "(empty)".to_string(),
        length if length > MOST => format!("{} and {} bytes more", digits(&bytes[..MOST]), length - MOST),
        _ => digits(bytes),
    }
}
