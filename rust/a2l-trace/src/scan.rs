//! Numbers and words of lines of strangers. Each function looks at a byte a bounded number of times.

use memchr::memmem;

/// The hexadecimal number of at most 16 digits at the begin of a text, and what follows it.
pub fn hexadecimal(text: &[u8]) -> Option<(u64, &[u8])> {
    let length = text.iter().take(17).take_while(|byte| byte.is_ascii_hexdigit()).count();
    if !(1..=16).contains(&length) {
        return None;
    }
    let digit = |&byte: &u8| (byte as char).to_digit(16).map_or(0, u64::from);
    let number = text[..length].iter().map(digit).fold(0, |number, digit| number << 4 | digit);
    Some((number, &text[length..]))
}

/// The same after `0x`.
pub fn prefixed(text: &[u8]) -> Option<(u64, &[u8])> {
    hexadecimal(text.strip_prefix(b"0x")?)
}

/// The decimal number of at most 9 digits at the begin of a text, and what follows it.
pub fn decimal(text: &[u8]) -> Option<(u64, &[u8])> {
    let length = text.iter().take(10).take_while(|byte| byte.is_ascii_digit()).count();
    if !(1..=9).contains(&length) {
        return None;
    }
    Some((text[..length].iter().fold(0, |number, &byte| number * 10 + u64::from(byte - b'0')), &text[length..]))
}

/// The bytes of pairs of hexadecimal digits, which are the whole text.
pub fn bytes(text: &[u8]) -> Option<Vec<u8>> {
    let is_whole = !text.is_empty() && text.len() % 2 == 0 && text.len() <= 128;
    is_whole.then(|| {
        text.chunks(2).map(|pair| Some(hexadecimal(pair).filter(|(_, rest)| rest.is_empty())?.0 as u8)).collect()
    })?
}

/// What follows blanks.
pub fn after_blanks(text: &[u8]) -> &[u8] {
    let blanks = text.iter().take_while(|&&byte| byte == b' ' || byte == b'\t').count();
    &text[blanks..]
}

/// What is before the first place of a word, and what follows it.
pub fn split<'t>(text: &'t [u8], word: &[u8]) -> Option<(&'t [u8], &'t [u8])> {
    let at = memmem::find(text, word)?;
    Some((&text[..at], &text[at + word.len()..]))
}

/// The same of the last place.
pub fn split_last<'t>(text: &'t [u8], word: &[u8]) -> Option<(&'t [u8], &'t [u8])> {
    let at = memmem::rfind(text, word)?;
    Some((&text[..at], &text[at + word.len()..]))
}

/// The text until the first byte that isn't of a word of hexadecimal digits, and what follows.
pub fn digits(text: &[u8]) -> (&[u8], &[u8]) {
    text.split_at(text.iter().take_while(|byte| byte.is_ascii_hexdigit()).count())
}

/// Where a part of a line begins in it.
pub fn offset_in(line: &[u8], part: &[u8]) -> usize {
    (part.as_ptr() as usize).wrapping_sub(line.as_ptr() as usize).min(line.len())
}

/// The last part of a path.
pub fn basename(path: &[u8]) -> &[u8] {
    path.rsplit(|&byte| byte == b'/').next().unwrap_or(path)
}

#[cfg(test)]
mod tests {
    use super::*;

    #[test]
    fn numbers() {
        assert_eq!(hexadecimal(b"1Fg"), Some((31, &b"g"[..])));
        assert_eq!(hexadecimal(b"ffffffffffffffff]"), Some((u64::MAX, &b"]"[..])));
        assert_eq!((hexadecimal(b"10000000000000000"), hexadecimal(b"x"), prefixed(b"10")), (None, None, None));
        assert_eq!(prefixed(b"0x10 "), Some((16, &b" "[..])));
        assert_eq!((decimal(b"12:"), decimal(b"1234567890"), decimal(b"")), (Some((12, &b":"[..])), None, None));
        assert_eq!((bytes(b"0aff"), bytes(b"0af"), bytes(b""), bytes(b"0x")), (Some(vec![10, 255]), None, None, None));
    }

    #[test]
    fn words() {
        assert_eq!(split(b"a - b - c", b" - "), Some((&b"a"[..], &b"b - c"[..])));
        assert_eq!(split_last(b"a - b - c", b" - "), Some((&b"a - b"[..], &b"c"[..])));
        assert_eq!((basename(b"/a/b"), basename(b"b"), after_blanks(b" \tx ")), (&b"b"[..], &b"b"[..], &b"x "[..]));
        let line = b"abcdef";
        assert_eq!(offset_in(line, &line[2..4]), 2);
    }
}
