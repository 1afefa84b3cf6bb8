//! Numbers as clients spell them.

/// How numbers are spelled in LLVM's requests.
#[derive(Debug, Clone, Copy, PartialEq, Eq)]
pub enum Spelling {
    /// As in C: hexadecimal after 0x, binary after 0b, octal after 0 or 0o, decimal.
    OfC,
    /// Hexadecimal, after 0x or without.
    Hexadecimal,
}

/// The number that a word is, the whole word; none where it doesn't fit into 64 bits.
pub fn number(spelling: Spelling, word: &[u8]) -> Option<u64> {
    match (spelling, word) {
        (_, [b'0', b'x' | b'X', digits @ ..]) => digits_of(digits, 16),
        (Spelling::Hexadecimal, digits) => digits_of(digits, 16),
        (Spelling::OfC, [b'0', b'b' | b'B', digits @ ..]) => digits_of(digits, 2),
        (Spelling::OfC, [b'0', b'o', digits @ ..]) => digits_of(digits, 8),
        (Spelling::OfC, [b'0', digits @ ..]) if !digits.is_empty() => digits_of(digits, 8),
        (Spelling::OfC, digits) => digits_of(digits, 10),
    }
}

/// The bytes of a text of hexadecimal digits.
pub fn hexadecimal_bytes(digits: &[u8]) -> Option<Vec<u8>> {
    if digits.is_empty() || digits.len() % 2 != 0 {
        return None;
    }
    digits.chunks(2).map(|pair| u8::try_from(digits_of(pair, 16)?).ok()).collect()
}

/// The number of some digits, all of them; none where it doesn't fit.
pub fn digits_of(digits: &[u8], radix: u32) -> Option<u64> {
    if !digits.first()?.is_ascii_alphanumeric() {
        return None;
    }
    u64::from_str_radix(std::str::from_utf8(digits).ok()?, radix).ok()
}

#[cfg(test)]
mod tests {
    use super::*;

    #[test]
    fn numbers_of_c() {
        for (word, wanted) in [
            ("0x272c", Some(0x272c)),
            ("0X272C", Some(0x272c)),
            ("10028", Some(10028)),
            ("010", Some(8)),
            ("0o17", Some(15)),
            ("0b101", Some(5)),
            ("0", Some(0)),
            ("0xffffffffffffffff", Some(u64::MAX)),
            ("0xfffffffffffffffff", None),
            ("18446744073709551616", None),
            ("272c", None),
            ("0x", None),
            ("", None),
            ("-1", None),
            ("+1", None),
            ("0x+1", None),
            ("09", None),
        ] {
            assert_eq!(number(Spelling::OfC, word.as_bytes()), wanted, "{word}");
        }
        assert_eq!(number(Spelling::Hexadecimal, b"272c"), Some(0x272c));
        assert_eq!(number(Spelling::Hexadecimal, b"0x10"), Some(0x10));
        assert_eq!(number(Spelling::Hexadecimal, b","), None);
    }

    #[test]
    fn build_ids() {
        assert_eq!(hexadecimal_bytes(b"0aFF"), Some(vec![0x0a, 0xff]));
        assert!([&b"0a0"[..], b"", b"zz", b"+1"].iter().all(|digits| hexadecimal_bytes(digits).is_none()));
    }
}
