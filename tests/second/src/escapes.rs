//! Texts on one line, as lists of the corpus have them.

/// A text on one line: `\t` for a tab, `\n` for LF, `\x` and two digits for every other byte
/// that is not printable, and for the backslash.
pub fn escaped(text: &[u8]) -> String {
    let written = |&byte: &u8| match byte {
        b'\t' => "\\t".into(),
        b'\n' => "\\n".into(),
        b' '..=b'~' if byte != b'\\' => char::from(byte).into(),
        _ => format!("\\x{byte:02x}"),
    };
    text.iter().map(written).collect()
}

/// The text that is written so, if one is.
pub fn unescaped(written: &str) -> Option<Vec<u8>> {
    let mut pieces = written.split('\\');
    let mut text = pieces.next()?.as_bytes().to_vec();
    for piece in pieces {
        let (byte, rest) = match piece.split_at_checked(1)? {
            ("t", rest) => (b'\t', rest),
            ("n", rest) => (b'\n', rest),
            ("x", rest) => (u8::from_str_radix(rest.get(..2)?, 16).ok()?, &rest[2..]),
            _ => return None,
        };
        text.push(byte);
        text.extend(rest.bytes());
    }
    Some(text)
}

#[cfg(test)]
mod tests {
    use super::*;

    #[test]
    fn every_byte_is_read_as_it_is_written() {
        let bytes = Vec::from_iter(0..=255);
        assert_eq!(unescaped(&escaped(&bytes)), Some(bytes));
    }
}
