//! Identifiers and names as they are written.

const ALPHABET: &[u8; 64] = b"0123456789ABCDEFGHIJKLMNOPQRSTUVWXYZabcdefghijklmnopqrstuvwxyz_$";

/// Whether a text as it is spelled is a globally unique identifier that the server takes.
pub fn is_guid(spelled: &[u8]) -> bool {
    spelled.len() == 24
        && spelled.first() == Some(&b'\'')
        && spelled.last() == Some(&b'\'')
        && spelled[1..23]
            .iter()
            .all(|letter| ALPHABET.contains(letter))
}

/// An identifier that hangs on some words alone, as a text.
pub fn made_guid(words: &[u8]) -> Vec<u8> {
    // FNV-1a of 128 bits, by 6 bits for each of 21 letters and 2 bits for the first.
    let mut hash: u128 = 0x6c62_272e_07bb_0142_62b8_2175_6295_c58d;
    for &byte in words {
        hash ^= u128::from(byte);
        hash = hash.wrapping_mul(0x0000_0000_0100_0000_0000_0000_0000_013b);
    }
    let mut text = vec![b'\''];
    for place in (0..22).rev() {
        text.push(ALPHABET[((hash >> (6 * place)) & 63) as usize]);
    }
    text.push(b'\'');
    text
}

/// A name's text as it is spelled, or `$`.
pub fn name_of(spelled: Option<&[u8]>) -> Vec<u8> {
    spelled.unwrap_or(b"$").to_vec()
}

#[cfg(test)]
mod tests {
    use super::*;

    #[test]
    fn identifiers() {
        assert!(is_guid(b"'25OWQvmXj5BPgyergP43tY'"));
        assert!(!is_guid(b"'25OWQvmXj5BPgyergP43t'"));
        assert!(!is_guid(b"'25OWQvmXj5BPgyergP43t-'"));
        let made = made_guid(b"a wall");
        assert!(is_guid(&made));
        assert_eq!(made, made_guid(b"a wall"));
        assert_ne!(made, made_guid(b"a door"));
        assert!((b'0'..=b'3').contains(&made[1]));
    }
}
