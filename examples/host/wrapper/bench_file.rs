//! A bench file: entries of a 16-bit length, most significant byte first, and a message.

/// The message of the entry at the front of a part of a bench file, and what follows it.
pub fn front(file: &[u8]) -> Option<(&[u8], &[u8])> {
    match file {
        [high, low, rest @ ..] => {
            let length = usize::from(u16::from_be_bytes([*high, *low]));
            Some((rest.get(..length)?, &rest[length..]))
        }
        _ => None,
    }
}
