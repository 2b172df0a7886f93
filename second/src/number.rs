//! Numbers as the page writes them, in tables and in event lines alike.

/// The most digits a number may have.
const MAX_DIGITS: usize = 11;

/// Reads a number: decimal, 1 to 11 digits, no sign, no leading zero but in `0`.
pub fn parse(field: &[u8]) -> Option<u64> {
    if field.is_empty() || field.len() > MAX_DIGITS {
        return None;
    }
    if field[0] == b'0' && field.len() > 1 {
        return None;
    }
    let mut value = 0;
    for &byte in field {
        if !byte.is_ascii_digit() {
            return None;
        }
        value = value * 10 + u64::from(byte - b'0');
    }
    Some(value)
}

#[cfg(test)]
mod tests {
    use super::parse;

    #[test]
    fn good_numbers() {
        assert_eq!(parse(b"0"), Some(0));
        assert_eq!(parse(b"7"), Some(7));
        assert_eq!(parse(b"10"), Some(10));
        assert_eq!(parse(b"99999999999"), Some(99_999_999_999));
    }

    #[test]
    fn malformed_numbers() {
        let malformed: [&[u8]; 12] = [
            b"",
            b"00",
            b"01",
            b"+1",
            b"-1",
            b" 1",
            b"1 ",
            b"1\r",
            b"1\0",
            b"0x1",
            b"100000000000",
            b"\xff",
        ];
        for field in malformed {
            assert_eq!(parse(field), None, "{field:?}");
        }
    }
}
