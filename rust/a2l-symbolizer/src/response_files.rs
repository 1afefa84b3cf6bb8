//! Arguments that stand elsewhere: in files that the command line names (@FILE), as both originals
//! take them, and in a variable of LLVM's tools.

use std::ffi::{OsStr, OsString};
use std::os::unix::ffi::{OsStrExt, OsStringExt};
use std::path::Path;

use a2l::File;

use crate::identity::Identity;

/// So many files are read at most: one may name itself.
const MOST: usize = 2000;

/// The words of a command line, after those of the tool's variable, where each @FILE is replaced by
/// the words in that file. One that can't be read stays.
pub fn with_response_files(identity: Identity, words: &[OsString]) -> Vec<OsString> {
    let variable = match identity {
        Identity::LlvmSymbolizer => std::env::var_os("LLVM_SYMBOLIZER_OPTS"),
        Identity::LlvmAddr2line => std::env::var_os("LLVM_ADDR2LINE_OPTS"),
        Identity::Addr2line => None,
    };
    let usual = variable.map(|text| split(text.as_bytes())).unwrap_or_default();
    // The next word is the last one.
    let mut waiting: Vec<OsString> = words.iter().rev().cloned().chain(usual.into_iter().rev()).collect();
    let (mut found, mut count) = (Vec::new(), 0);
    while let Some(word) = waiting.pop() {
        let name = word.as_bytes().strip_prefix(b"@").filter(|_| count < MOST);
        match name.and_then(|name| File::read(Path::new(OsStr::from_bytes(name))).ok()) {
            Some((file, _)) => {
                count += 1;
                waiting.extend(split(&file).into_iter().rev());
            }
            None => found.push(word),
        }
    }
    found
}

/// The words of a text, between which there are blanks. What stands in quotes is one, and the byte
/// after a backslash stands for itself.
fn split(text: &[u8]) -> Vec<OsString> {
    let (mut words, mut word, mut quote) = (Vec::new(), None::<Vec<u8>>, None);
    let mut bytes = text.iter().copied();
    while let Some(byte) = bytes.next() {
        match byte {
            b'\\' => word.get_or_insert_with(Vec::new).extend(bytes.next()),
            _ if quote == Some(byte) => quote = None,
            _ if quote.is_some() => word.get_or_insert_with(Vec::new).push(byte),
            b'"' | b'\'' => {
                quote = Some(byte);
                word.get_or_insert_with(Vec::new);
            }
            _ if byte.is_ascii_whitespace() => words.extend(word.take()),
            _ => word.get_or_insert_with(Vec::new).push(byte),
        }
    }
    words.extend(word);
    words.into_iter().map(OsString::from_vec).collect()
}

#[cfg(test)]
mod tests {
    use super::*;

    #[test]
    fn words_of_a_text() {
        for (text, words) in [
            ("-f -i\n\t-C ", &["-f", "-i", "-C"][..]),
            (r#""a b" 'c "d' e\ f """#, &["a b", "c \"d", "e f", ""]),
            (r#"x"y z"w"#, &["xy zw"]),
            ("", &[]),
        ] {
            assert_eq!(split(text.as_bytes()), words, "{text}");
        }
    }

    #[test]
    fn files_that_name_files() {
        let folder = std::env::temp_dir().join(format!("a2l-symbolizer-{}-response", std::process::id()));
        std::fs::create_dir_all(&folder).expect("a folder");
        let [one, two] = ["one", "two"].map(|name| format!("@{}", folder.join(name).display()));
        std::fs::write(&one[1..], format!("-f {two} -C")).expect("a file");
        std::fs::write(&two[1..], "-i @nowhere").expect("a file");
        let found = with_response_files(Identity::Addr2line, &["-a".into(), one.clone().into(), "10".into()]);
        assert_eq!(found, ["-a", "-f", "-i", "@nowhere", "-C", "10"]);
        std::fs::write(&two[1..], &one).expect("a file");
        assert!(with_response_files(Identity::Addr2line, &[one.into()]).len() > 1);
        std::fs::remove_dir_all(&folder).expect("the folder is removed");
    }
}
