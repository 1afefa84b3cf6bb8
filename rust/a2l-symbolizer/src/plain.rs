//! Texts of strangers as they may be written to a terminal or into a log.

/// A text without control characters but tabs: each is a question mark, those of ASCII and those
/// that Unicode has at U+0080 to U+009F. So no name ends a line, or speaks to a terminal.
pub fn without_controls(text: &[u8]) -> Vec<u8> {
    if !text.iter().fold(false, |found, &byte| found | (byte < 0x20) | (byte == 0x7f) | (byte == 0xc2)) {
        return text.to_vec();
    }
    let (mut plain, mut rest) = (Vec::with_capacity(text.len()), text);
    while let Some((&byte, after)) = rest.split_first() {
        let is_unicode_control = byte == 0xc2 && matches!(after.first(), Some(0x80..=0x9f));
        let is_control = is_unicode_control || (byte.is_ascii_control() && byte != b'\t');
        plain.push(if is_control { b'?' } else { byte });
        rest = if is_unicode_control { &after[1..] } else { after };
    }
    plain
}

#[cfg(test)]
mod tests {
    use super::*;

    #[test]
    fn controls_are_question_marks() {
        for (text, plain) in [
            (&b"a\nb\rc"[..], &b"a?b?c"[..]),
            (b"\x1b[31mred\x07\x7f", b"?[31mred??"),
            (b"tab\tstays", b"tab\tstays"),
            (b"\0", b"?"),
            (b"csi \xc2\x9b31m", b"csi ?31m"),
            (b"\xc2\xa7 \xc3\x9b \xff\xc2", b"\xc2\xa7 \xc3\x9b \xff\xc2"),
        ] {
            assert_eq!(without_controls(text), plain);
        }
    }
}
