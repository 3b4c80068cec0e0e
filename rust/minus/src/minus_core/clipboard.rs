//! The terminal's clipboard.

/// The digits of base 64.
const DIGITS: &[u8; 64] = b"ABCDEFGHIJKLMNOPQRSTUVWXYZabcdefghijklmnopqrstuvwxyz0123456789+/";

/// The control sequence (OSC 52) that asks a terminal to put a text into its clipboard.
pub fn copying(text: &str) -> Vec<u8> {
    let mut sequence = b"\x1b]52;c;".to_vec();
    sequence.extend(text.as_bytes().chunks(3).flat_map(encoded));
    sequence.push(b'\x07');
    sequence
}

/// Up to three bytes in base 64: a digit for each six bits that they have, and `=` for the rest of four.
fn encoded(bytes: &[u8]) -> [u8; 4] {
    let bits = (0..3).fold(0, |bits, place| bits << 8 | usize::from(bytes.get(place).copied().unwrap_or(0)));
    std::array::from_fn(|place| match place <= bytes.len() {
        true => DIGITS[bits >> (18 - 6 * place) & 63],
        false => b'=',
    })
}

#[cfg(test)]
mod tests {
    use super::copying;

    #[test]
    fn a_text_is_in_base_64() {
        // The examples of RFC 4648, section 10.
        for (text, encoded) in [("", ""), ("f", "Zg=="), ("fo", "Zm8="), ("foo", "Zm9v"), ("foobar", "Zm9vYmFy")] {
            assert_eq!(copying(text), format!("\x1b]52;c;{encoded}\x07").into_bytes());
        }
    }
}
