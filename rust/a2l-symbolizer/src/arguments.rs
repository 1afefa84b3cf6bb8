//! The command line: the options of llvm-symbolizer and of both addr2lines, and those that are our
//! own.

use std::ffi::{OsStr, OsString};
use std::os::unix::ffi::OsStrExt;
use std::path::PathBuf;

use clap::error::{ContextValue, ErrorKind};
use clap::{ArgAction, CommandFactory, Parser};

use crate::identity::Identity;
use crate::numbers::{hexadecimal_bytes, number, Spelling};

/// Which name of a function is shown.
#[derive(Debug, Clone, Copy, PartialEq, Eq, clap::ValueEnum)]
pub enum Functions {
    None,
    Short,
    #[value(alias = "true")]
    Linkage,
}

/// How replies are written.
#[derive(Debug, Clone, Copy, PartialEq, Eq, clap::ValueEnum)]
pub enum OutputStyle {
    #[value(name = "LLVM", alias = "llvm")]
    Llvm,
    #[value(name = "GNU", alias = "gnu")]
    Gnu,
    #[value(name = "JSON", alias = "json")]
    Json,
}

/// How a value is shown that may be left out.
const OPTIONAL: &str = "WHICH";

#[derive(Debug, Parser)]
#[command(
    disable_version_flag = true,
    infer_long_args = true,
    args_override_self = true,
    about = "Functions, files and lines of addresses, one request a line, as llvm-symbolizer and addr2line answer them",
    after_help = "Requests are read from standard input where the command line has none. See a2l-symbolizer(1)."
)]
pub struct Arguments {
    /// The file that is asked about
    #[arg(short = 'e', long = "obj", visible_alias = "exe", value_name = "FILE")]
    pub object: Option<PathBuf>,
    /// The file that is asked about, by its build id
    #[arg(long, value_name = "HEX", value_parser = build_id, conflicts_with = "object")]
    pub build_id: Option<BuildId>,
    /// Shows functions: by no name, the short one, or the whole one
    #[arg(short = 'f', long, value_name = OPTIONAL, num_args = 0..=1, require_equals = true,
          default_missing_value = "linkage")]
    pub functions: Option<Functions>,
    /// Shows inlined functions too
    #[arg(short = 'i', long = "inlines", aliases = ["inlining", "inline"], value_name = OPTIONAL,
          num_args = 0..=1, require_equals = true, default_missing_value = "true", overrides_with = "no_inlines")]
    inlines: Option<bool>,
    /// Shows no inlined functions
    #[arg(long, overrides_with = "inlines")]
    no_inlines: bool,
    /// Shows each address
    #[arg(short = 'a', long = "addresses", visible_aliases = ["print-address"])]
    pub addresses: bool,
    /// Makes names of C++ and Rust readable
    #[arg(short = 'C', long, value_name = "STYLE", num_args = 0..=1, require_equals = true,
          default_missing_value = "auto", overrides_with = "no_demangle")]
    demangle: Option<String>,
    /// Shows names as they stand in the file
    #[arg(long, overrides_with = "demangle")]
    no_demangle: bool,
    /// Writes a line for each frame
    #[arg(short = 'p', long)]
    pub pretty_print: bool,
    /// Shows the last part of each path alone
    #[arg(short = 's', long)]
    pub basenames: bool,
    /// Shows paths from the folder on in which the compiler ran
    #[arg(long)]
    pub relativenames: bool,
    /// Addresses count from the begin of this section
    #[arg(short = 'j', long, value_name = "NAME")]
    pub section: Option<String>,
    /// The format of the file, by its name in GNU's tools
    #[arg(short = 'b', long, value_name = "FORMAT")]
    pub target: Option<String>,
    /// How replies are written
    #[arg(long, value_name = "STYLE", ignore_case = true)]
    pub output_style: Option<OutputStyle>,
    /// Is subtracted from each address
    #[arg(long, value_name = "OFFSET", value_parser = number_of_c)]
    pub adjust_vma: Option<u64>,
    /// Has debug files by build id, and by path; may be given many times
    #[arg(long = "debug-file-directory", alias = "fallback-debug-path", value_name = "FOLDER")]
    pub debug_folders: Vec<PathBuf>,
    /// Has the split units of programs, in place of the package beside each
    #[arg(long, value_name = "FILE")]
    pub dwp: Option<PathBuf>,
    /// Asks no debuginfod
    #[arg(long)]
    pub no_debuginfod: bool,
    /// Uses no symbol tables
    #[arg(long)]
    no_symbols: bool,
    #[arg(long, hide = true, num_args = 0..=1, require_equals = true, default_missing_value = "true")]
    use_symbol_table: Option<bool>,
    /// Gives proved answers alone: those of DWARF 5, by no symbol and no other reader
    #[arg(long)]
    pub proved: bool,
    /// Reads files, and doesn't map them
    #[arg(long)]
    pub no_mmap: bool,
    /// Keeps files open of so many bytes together, which may end in K, M or G
    #[arg(long, value_name = "BYTES", default_value = "4G", value_parser = bytes_of)]
    pub cache_size: u64,
    /// Keeps so many files open
    #[arg(long, value_name = "FILES", default_value_t = 16)]
    pub cache_files: usize,
    /// Shows what is known of each frame on lines of their own
    #[arg(long)]
    pub verbose: bool,
    /// Shows so many lines of the source around each place
    #[arg(long, value_name = "LINES", default_value_t = 0)]
    pub print_source_context_lines: usize,
    /// Shows the line before, where an address has none
    #[arg(long)]
    pub skip_line_zero: bool,
    /// Reports on standard error who answers for each file, and why one can't be read
    #[arg(long)]
    pub explain: bool,
    /// Asks 1,000 addresses of the file through both protocols, and compares with the library's
    /// answers
    #[arg(long)]
    pub self_check: bool,
    /// Stands for this tool, whatever the program's name
    #[arg(long = "as", value_name = "TOOL")]
    pub identity: Option<Identity>,
    /// Prints the version
    #[arg(short = 'v', short_alias = 'V', long)]
    pub version: bool,
    #[arg(short = 'H', hide = true, action = ArgAction::Help)]
    help_too: Option<bool>,
    #[command(flatten)]
    ignored: Ignored,
    /// Requests
    #[arg(value_name = "REQUEST")]
    pub requests: Vec<OsString>,
}

/// What changes no answer.
#[derive(Debug, clap::Args)]
struct Ignored {
    #[arg(long, hide = true)]
    default_arch: Option<String>,
    #[arg(long, hide = true)]
    dsym_hint: Vec<String>,
    #[arg(long, hide = true, num_args = 0..=1, require_equals = true)]
    color: Option<Option<String>>,
    #[arg(long, alias = "relative-addresses", hide = true)]
    relative_address: bool,
    #[arg(long, hide = true)]
    untag_addresses: bool,
    #[arg(long, hide = true)]
    no_untag_addresses: bool,
    #[arg(long, hide = true)]
    debuginfod: bool,
    #[arg(long, hide = true)]
    disable_gsym: bool,
    #[arg(short = 'R', long, hide = true)]
    recurse_limit: bool,
    #[arg(short = 'r', long, hide = true)]
    no_recurse_limit: bool,
}

/// The bytes of a build id.
#[derive(Debug, Clone, PartialEq, Eq)]
pub struct BuildId(pub Vec<u8>);

fn build_id(word: &str) -> Result<BuildId, String> {
    hexadecimal_bytes(word.as_bytes()).map(BuildId).ok_or_else(|| "no pairs of hexadecimal digits".to_owned())
}

fn number_of_c(word: &str) -> Result<u64, String> {
    number(Spelling::OfC, word.as_bytes()).ok_or_else(|| "no number of 64 bits".to_owned())
}

/// A number of bytes, which may end in K, M or G.
fn bytes_of(word: &str) -> Result<u64, String> {
    let (digits, shift) = match word.as_bytes().last() {
        Some(b'K' | b'k') => (&word[..word.len() - 1], 10),
        Some(b'M' | b'm') => (&word[..word.len() - 1], 20),
        Some(b'G' | b'g') => (&word[..word.len() - 1], 30),
        _ => (word, 0),
    };
    let number = digits.parse::<u64>().map_err(|why| why.to_string())?;
    number.checked_mul(1 << shift).ok_or_else(|| "too many bytes".to_owned())
}

impl Arguments {
    /// The arguments after the program's own name, for a tool.
    pub fn parse_for(identity: Identity, words: &[OsString]) -> Result<Arguments, clap::Error> {
        let spelled = words.iter().map(|word| if identity.is_llvm() { with_two_dashes(word) } else { word.clone() });
        let name = OsString::from(identity.name());
        Arguments::try_parse_from(std::iter::once(name).chain(spelled))
    }

    /// The line of an error of the command line, in the words of the tool.
    pub fn refusal(identity: Identity, why: &clap::Error) -> String {
        match (why.kind(), why.context().next()) {
            (ErrorKind::UnknownArgument, Some((_, ContextValue::String(word)))) => {
                match word.strip_prefix('-').filter(|_| !identity.is_llvm()) {
                    Some(long) if long.starts_with('-') => format!("unrecognized option '{word}'"),
                    Some(letter) => format!("invalid option -- '{letter}'"),
                    None => format!("unknown argument '{word}'"),
                }
            }
            _ => why.to_string().lines().next().unwrap_or_default().trim_start_matches("error: ").to_owned(),
        }
    }

    pub fn inlines(&self, usual: bool) -> bool {
        !self.no_inlines && self.inlines.unwrap_or(usual)
    }

    pub fn demangles(&self, usual: bool) -> bool {
        match self.demangle.as_deref() {
            Some(style) => !matches!(style, "false" | "none"),
            None => usual && !self.no_demangle,
        }
    }

    pub fn symbols(&self) -> bool {
        !self.no_symbols && !self.proved && self.use_symbol_table.unwrap_or(true)
    }
}

/// The tool that some arguments say, whatever else they say.
pub fn identity_of(words: &[OsString]) -> Option<Identity> {
    let mut words = words.iter();
    while let Some(word) = words.next() {
        let tool = match word.as_bytes() {
            b"--as" => words.next()?.to_str()?,
            bytes => match bytes.strip_prefix(b"--as=") {
                Some(tool) => std::str::from_utf8(tool).ok()?,
                None => continue,
            },
        };
        return <Identity as clap::ValueEnum>::from_str(tool, false).ok();
    }
    None
}

/// LLVM spells its long options with one dash too. Such a word with two.
fn with_two_dashes(word: &OsStr) -> OsString {
    let bytes = word.as_bytes();
    let name = bytes.strip_prefix(b"-").and_then(|rest| rest.split(|&byte| byte == b'=').next()).unwrap_or_default();
    if name.len() < 2 || name.starts_with(b"-") || !is_long_option(name) {
        return word.to_owned();
    }
    let mut spelled = OsString::from("-");
    spelled.push(word);
    spelled
}

fn is_long_option(name: &[u8]) -> bool {
    let command = Arguments::command();
    let mut known = command.get_arguments().flat_map(|argument| {
        let aliases = argument.get_all_aliases().unwrap_or_default();
        aliases.into_iter().chain(argument.get_long())
    });
    known.any(|long| long.as_bytes() == name)
}

#[cfg(test)]
mod tests {
    use super::*;

    fn parsed(identity: Identity, words: &[&str]) -> Arguments {
        let words: Vec<OsString> = words.iter().map(OsString::from).collect();
        Arguments::parse_for(identity, &words).expect("arguments that are accepted")
    }

    fn refused(identity: Identity, words: &[&str]) -> String {
        let words: Vec<OsString> = words.iter().map(OsString::from).collect();
        Arguments::refusal(identity, &Arguments::parse_for(identity, &words).expect_err("a refusal"))
    }

    #[test]
    fn letters_stand_together() {
        for words in [["-aife", "x"].as_slice(), &["-afi", "-e", "x"], &["-iafe=x"], &["-a", "-f", "-i", "-ex"]] {
            let arguments = parsed(Identity::Addr2line, words);
            assert_eq!(arguments.object, Some(PathBuf::from("x")), "{words:?}");
            assert_eq!(arguments.functions, Some(Functions::Linkage), "{words:?}");
            assert!(arguments.addresses && arguments.inlines(false), "{words:?}");
        }
        let arguments = parsed(Identity::Addr2line, &["-Cpe", "x", "0x10"]);
        assert!(arguments.demangles(false) && arguments.pretty_print);
        assert_eq!(arguments.requests, ["0x10"]);
    }

    #[test]
    fn llvm_has_one_dash_too() {
        let words =
            ["-inlining", "-demangle=false", "-functions=short", "-obj=x", "-print-address", "-output-style=GNU"];
        let arguments = parsed(Identity::LlvmSymbolizer, &words);
        assert!(arguments.inlines(false) && !arguments.demangles(true) && arguments.addresses);
        assert_eq!(arguments.functions, Some(Functions::Short));
        assert_eq!(arguments.object, Some(PathBuf::from("x")));
        assert_eq!(arguments.output_style, Some(OutputStyle::Gnu));
    }

    #[test]
    fn the_last_one_counts() {
        let llvm = |words: &[&str]| parsed(Identity::LlvmSymbolizer, words);
        assert!(!llvm(&["--inlines", "--no-inlines"]).inlines(true));
        assert!(llvm(&["--no-inlines", "--inlines"]).inlines(false));
        assert!(!llvm(&["--inlining=false"]).inlines(true));
        assert!(!llvm(&["--demangle", "--no-demangle"]).demangles(true));
        assert!(llvm(&["--no-demangle", "-C"]).demangles(false));
        assert_eq!(llvm(&["-e", "x", "-e", "y"]).object, Some(PathBuf::from("y")));
    }

    #[test]
    fn what_clients_pass_is_taken() {
        for words in [
            ["--demangle", "--inlines", "--default-arch=x86_64"].as_slice(),
            &["--demangle", "--functions=linkage", "--inlines", "--default-arch=x86_64"],
            &["--functions=linkage", "--inlining", "--demangle"],
            &["--inlining", "--functions"],
            &["--inlining", "-demangle=false"],
        ] {
            parsed(Identity::LlvmSymbolizer, words);
        }
        for words in [
            ["-C", "-i", "-fe", "x"].as_slice(),
            &["-fi", "--demangle", "-e", "x"],
            &["-e", "x", "-i", "-f"],
            &["-aif", "-e", "x"],
            &["-f", "-C", "-e", "x", "-i"],
            &["--functions", "--pretty-print", "--inlines", "--exe=x", "0x10"],
        ] {
            parsed(Identity::Addr2line, words);
        }
    }

    #[test]
    fn refusals_name_what_is_refused() {
        let llvm = |word| refused(Identity::LlvmSymbolizer, &[word]);
        assert_eq!(llvm("--badflag"), "unknown argument '--badflag'");
        assert_eq!(llvm("-Z"), "unknown argument '-Z'");
        assert!(llvm("--output-style=XML").contains("XML") && llvm("--adjust-vma=x").contains("--adjust-vma"));
        assert_eq!(refused(Identity::Addr2line, &["--badflag"]), "unrecognized option '--badflag'");
        assert_eq!(refused(Identity::Addr2line, &["-Z"]), "invalid option -- 'Z'");
    }

    #[test]
    fn sizes_of_the_cache() {
        for (word, bytes) in [("0", 0), ("1024", 1024), ("2M", 2 << 20), ("4g", 4 << 30)] {
            assert_eq!(bytes_of(word), Ok(bytes));
        }
        assert!(["", "K", "x", "-1", "99999999999G"].iter().all(|word| bytes_of(word).is_err()));
    }
}
