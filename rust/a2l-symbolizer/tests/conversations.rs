//! Whole conversations with the program, about the sample `samples/inlined.elf`, whose frames were
//! worked out by hand.

use std::io::{BufRead, BufReader, Read, Write};
use std::path::PathBuf;
use std::process::{Child, ChildStdin, ChildStdout, Command, Output, Stdio};

const SAMPLE: &str = concat!(env!("CARGO_MANIFEST_DIR"), "/../../samples/inlined.elf");
const TOOL: &str = env!("CARGO_BIN_EXE_a2l-symbolizer");
const LEAF: &str = "leaf\n/w/a.c:4:0\nmid\n/w/a.c:30:0\nmain\n/w/z.c:20:7\n\n";
const UNKNOWN: &str = "??\n??:0:0\n\n";

/// Runs the tool on a text, and gives back what it wrote and its status.
fn run(tool: &str, words: &[&str], input: &str) -> Output {
    let mut command = Command::new(tool);
    command.args(words).stdin(Stdio::piped()).stdout(Stdio::piped()).stderr(Stdio::piped());
    let mut child = command.spawn().expect("the tool starts");
    // A tool that refuses its arguments reads nothing.
    let _ = child.stdin.take().expect("a pipe").write_all(input.as_bytes());
    child.wait_with_output().expect("the tool ends")
}

/// What the tool writes, which ends well and is quiet.
fn told(words: &[&str], input: &str) -> String {
    let output = run(TOOL, words, input);
    assert_eq!(String::from_utf8_lossy(&output.stderr), "", "{words:?}");
    assert_eq!(output.status.code(), Some(0), "{words:?}");
    String::from_utf8(output.stdout).expect("UTF-8")
}

/// A folder that is removed with the test.
struct Folder(PathBuf);

impl Folder {
    fn new(name: &str) -> Folder {
        let path = std::env::temp_dir().join(format!("a2l-symbolizer-{}-{name}", std::process::id()));
        std::fs::create_dir_all(&path).expect("a folder");
        Folder(path)
    }

    fn path(&self, name: &str) -> String {
        self.0.join(name).to_str().expect("UTF-8").to_owned()
    }
}

impl Drop for Folder {
    fn drop(&mut self) {
        std::fs::remove_dir_all(&self.0).expect("the folder is removed");
    }
}

/// A tool that runs, and is asked line by line.
struct Talk {
    child: Child,
    input: ChildStdin,
    output: BufReader<ChildStdout>,
}

impl Talk {
    fn new(words: &[&str]) -> Talk {
        let mut command = Command::new(TOOL);
        let mut child =
            command.args(words).stdin(Stdio::piped()).stdout(Stdio::piped()).spawn().expect("the tool starts");
        let (input, output) = (child.stdin.take().expect("a pipe"), child.stdout.take().expect("a pipe"));
        Talk { child, input, output: BufReader::new(output) }
    }

    /// The reply in LLVM's style.
    fn ask(&mut self, line: &str) -> String {
        writeln!(self.input, "{line}").expect("the tool reads");
        let mut reply = String::new();
        while !reply.ends_with("\n\n") {
            assert!(self.output.read_line(&mut reply).expect("UTF-8") > 0, "the tool ended after {reply:?}");
        }
        reply
    }

    fn end(mut self) -> Option<i32> {
        drop(self.input);
        let mut rest = String::new();
        self.output.read_to_string(&mut rest).expect("UTF-8");
        assert_eq!(rest, "");
        self.child.wait().expect("the tool ends").code()
    }
}

#[test]
fn replies_of_llvm() {
    let mut talk = Talk::new(&["--demangle", "--inlines", "--default-arch=x86_64"]);
    for (line, reply) in [
        (format!("CODE \"{SAMPLE}\" 0x401004"), LEAF),
        (format!("\"{SAMPLE}:x86_64\" 4198404 trailing"), LEAF),
        (format!("FILE:{SAMPLE} 0x401004"), LEAF),
        (format!("CODE \"{SAMPLE}\" 0x1"), UNKNOWN),
        (format!("CODE \"{SAMPLE}\" 0xffffffffffffffff"), UNKNOWN),
        (format!("CODE \"{SAMPLE}\" 0xfffffffffffffffff"), UNKNOWN),
        (format!("DATA \"{SAMPLE}\" 0x1"), "??\n0 0\n??:?\n\n"),
        (format!("FRAME \"{SAMPLE}\" 0x401004"), "??\n\n"),
        ("CODE \"[stack]\" 0x10".to_owned(), UNKNOWN),
        ("BUILDID:00 0x10".to_owned(), UNKNOWN),
        ("garbage".to_owned(), UNKNOWN),
        (String::new(), UNKNOWN),
    ] {
        assert_eq!(talk.ask(&line), reply, "{line}");
    }
    assert_eq!(talk.end(), Some(0));
}

#[test]
fn shapes_of_llvm() {
    let line = &format!("{SAMPLE} 0x401004\n");
    assert_eq!(told(&["--no-inlines"], line), "main\n/w/a.c:4:0\n\n");
    assert_eq!(told(&["-s", "--functions=none"], line), "a.c:4:0\na.c:30:0\nz.c:20:7\n\n");
    let pretty =
        "0x401004: leaf at /w/a.c:4:0\n (inlined by) mid at /w/a.c:30:0\n (inlined by) main at /w/z.c:20:7\n\n";
    assert_eq!(told(&["-p", "-a"], line), pretty);
    assert_eq!(told(&["-e", SAMPLE, "--adjust-vma=0x10"], "0x401014\n"), LEAF);
    let sentinel = told(&["-e", SAMPLE, "--adjust-vma=0xffffffffffbfeffb"], "0xffffffffffffffff\n0xfffffffffffffffe\n");
    assert_eq!(sentinel, [UNKNOWN, "mid\n/w/a.c:3:0\nmain\n/w/z.c:20:7\n\n"].concat());
    assert_eq!(told(&["--output-style=GNU"], line), "leaf\n/w/a.c:4\nmid\n/w/a.c:30\nmain\n/w/z.c:20\n");
    assert_eq!(told(&["-e", SAMPLE], "0x401004"), LEAF, "a line without an end");
    assert_eq!(told(&["-e", SAMPLE, "0x401004", "0x1"], ""), [LEAF, UNKNOWN].concat());
    assert_eq!(told(&["--relativenames"], line), LEAF.replace("/w/", ""));
}

#[test]
fn replies_of_gnu() {
    let gnu = |words: &[&str], input: &str| told(&[&["--as=addr2line", "-e", SAMPLE], words].concat(), input);
    let all = "leaf\n/w/a.c:4\nmid\n/w/a.c:30\nmain\n/w/z.c:20\n";
    assert_eq!(gnu(&["-f", "-i"], "0000000000401004\n,\n"), format!("{all}??\n??:0\n"));
    assert_eq!(gnu(&["-if"], "0x401004\n-1\n"), format!("{all}??\n??:0\n"));
    let with_addresses =
        format!("0x0000000000401004\n{all}0xffffffffffffffff\n??\n??:0\n0x0000000000000000\n??\n??:0\n");
    assert_eq!(gnu(&["-aif"], "401004\nffffffffffffffff\n,\n"), with_addresses);
    assert_eq!(gnu(&[], "401004\nzz\n"), "/w/a.c:4\n??:0\n");
    assert_eq!(gnu(&["-f", "401004"], ""), "leaf\n/w/a.c:4\n");
    let pretty = "leaf at /w/a.c:4\n (inlined by) mid at /w/a.c:30\n (inlined by) main at /w/z.c:20\n?? ??:0\n";
    assert_eq!(gnu(&["-pfi"], "401004\n1\n"), pretty);
}

#[test]
fn replies_of_llvm_addr2line() {
    let told = told(&["--as", "llvm-addr2line", "-afe", SAMPLE], "401004\n,\n1\n");
    assert_eq!(told, "0x401004\nleaf\n/w/a.c:4\n??\n??:0\n0x1\n??\n??:0\n");
}

#[test]
fn replies_of_json() {
    let line = told(&["--output-style=JSON", "-e", SAMPLE, "--no-inlines"], "0x401004\n");
    let wanted = format!(
        "{{\"Address\":\"0x401004\",\"ModuleName\":\"{SAMPLE}\",\"Symbol\":[{{\"Column\":0,\"Discriminator\":0,\
         \"FileName\":\"/w/a.c\",\"FunctionName\":\"main\",\"Line\":4,\"StartAddress\":\"0x401000\",\"StartFileName\":\"\",\
         \"StartLine\":0}}]}}\n"
    );
    assert_eq!(line, wanted);
    let list = told(&["--output-style=JSON", "-e", SAMPLE, "0x1", "garbage"], "");
    assert!(list.starts_with("[{\"Address\":\"0x1\"") && list.ends_with("\"SymName\":\"garbage\"}]\n"), "{list}");
}

/// What llvm-symbolizer 19 writes of the sample.
#[test]
fn details_of_llvm() {
    let begun = |address, place: &str| format!("  Function start address: {address}\n{place}");
    let leaf = begun("0x401004", "  Line: 4\n  Column: 0\n");
    let mid = begun("0x401002", "  Line: 30\n  Column: 0\n");
    let main = begun("0x401000", "  Line: 20\n  Column: 7\n");
    let all =
        format!("leaf\n  Filename: /w/a.c\n{leaf}mid\n  Filename: /w/a.c\n{mid}main\n  Filename: /w/z.c\n{main}\n");
    assert_eq!(told(&["--verbose", "-e", SAMPLE, "0x401004"], ""), all);
    let unknown = "??\n  Filename: ??\n  Line: 0\n  Column: 0\n\n";
    assert_eq!(told(&["--verbose", "-e", SAMPLE, "0x1"], ""), unknown);
}

#[test]
fn a_file_that_is_missing_in_json() {
    let output = run(TOOL, &["--output-style=JSON", "--obj=/no/such", "0x10"], "");
    let wanted =
        "{\"Address\":\"0x0\",\"Error\":{\"Message\":\"No such file or directory\"},\"ModuleName\":\"/no/such\"}\n";
    assert_eq!(String::from_utf8_lossy(&output.stdout), wanted);
    assert_eq!((output.status.code(), &*output.stderr), (Some(1), &b""[..]));
    let line = told(&["--output-style=JSON"], "/no/such 0x10\n");
    assert_eq!(line, wanted.replace("0x0", "0x10"));
}

#[test]
fn requests_that_stand_elsewhere() {
    let folder = Folder::new("response");
    let words = folder.path("words");
    std::fs::write(&words, format!("-f -e '{SAMPLE}' +0x401004 401004")).expect("a file");
    let both = "leaf\n/w/a.c:4\n".repeat(2);
    assert_eq!(told(&["--as=addr2line", &format!("@{words}")], ""), both);
    assert_eq!(told(&["--as=addr2line", "-f", "-e", SAMPLE, "@/no/such"], ""), "??\n??:0\n");
    let mut command = Command::new(TOOL);
    let output = command.env("LLVM_SYMBOLIZER_OPTS", format!("-e '{SAMPLE}' -a")).arg("0x401004").output();
    assert_eq!(String::from_utf8_lossy(&output.expect("the tool runs").stdout), format!("0x401004\n{LEAF}"));
}

#[test]
fn names_of_the_program() {
    let folder = Folder::new("names");
    for (name, wanted) in [
        ("llvm-symbolizer-a2l", LEAF),
        ("llvm-addr2line-14", "/w/a.c:4\n"),
        ("addr2line", "/w/a.c:4\n"),
        ("x86_64-linux-gnu-addr2line", "/w/a.c:4\n"),
    ] {
        let path = folder.path(name);
        std::os::unix::fs::symlink(TOOL, &path).expect("a link");
        let output = run(&path, &["-e", SAMPLE], "0x401004\n");
        assert_eq!(String::from_utf8_lossy(&output.stdout), wanted, "{name}");
    }
}

#[test]
fn what_is_refused() {
    for (words, wanted) in [
        (&["--badflag"][..], "llvm-symbolizer: error: unknown argument '--badflag'\n"),
        (&["--as=addr2line", "-Z"], "addr2line: invalid option -- 'Z'\n"),
        (&["--as=addr2line", "-b", "elf99", "-e", "x"], "addr2line: x: invalid bfd target\n"),
        (&["-e", "/no/such", "0x10"], "llvm-symbolizer: error: '/no/such': No such file or directory\n"),
        (
            &["-e", "/etc/passwd", "0x10"],
            "llvm-symbolizer: error: '/etc/passwd': The file was not recognized as a valid object file\n",
        ),
        (
            &["--as=addr2line", "-e", SAMPLE, "-j", ".none"],
            &format!("addr2line: {SAMPLE}: cannot find section .none\n"),
        ),
    ] {
        let output = run(TOOL, words, "");
        assert_eq!(String::from_utf8_lossy(&output.stderr), wanted);
        assert_eq!((output.status.code(), output.stdout.len()), (Some(1), 0), "{words:?}");
    }
    for word in ["--help", "--version", "-v"] {
        assert_eq!(run(TOOL, &[word], "").status.code(), Some(0), "{word}");
    }
}

#[test]
fn a_file_that_is_missing_ends_nothing() {
    let folder = Folder::new("missing");
    let path = folder.path("x");
    let output = run(TOOL, &["--as=addr2line", "-fe", &path], "10\n20\n");
    assert_eq!(String::from_utf8_lossy(&output.stdout), "??\n??:0\n??\n??:0\n");
    let wanted = format!("addr2line: '{path}': No such file or directory\n");
    assert_eq!(String::from_utf8_lossy(&output.stderr), wanted, "once, not for each line");
    let mut talk = Talk::new(&[]);
    let line = format!("CODE \"{path}\" 0x401004");
    assert_eq!(talk.ask(&line), UNKNOWN);
    std::fs::copy(SAMPLE, &path).expect("a copy");
    assert_eq!(talk.ask(&line), LEAF);
    std::fs::write(&path, "no program").expect("a file");
    assert_eq!(talk.ask(&line), UNKNOWN);
}

#[test]
fn few_files_stay_open() {
    let folder = Folder::new("few");
    let paths: Vec<String> = (0..5).map(|n| folder.path(&n.to_string())).collect();
    for path in &paths {
        std::fs::copy(SAMPLE, path).expect("a copy");
    }
    for (words, most) in [
        (&["--cache-files=2"][..], 2),
        (&["--cache-files=1", "--cache-size=1"], 1),
        (&["--cache-size=4G"], 5),
        (&["--cache-size=1024"], 1),
        (&[], 5),
    ] {
        let mut talk = Talk::new(words);
        for path in paths.iter().cycle().take(12) {
            assert_eq!(talk.ask(&format!("CODE \"{path}\" 0x401004")), LEAF);
        }
        let maps = std::fs::read_to_string(format!("/proc/{}/maps", talk.child.id())).expect("its maps");
        let open = paths.iter().filter(|path| maps.contains(*path)).count();
        assert_eq!(open, most, "{words:?}");
        assert_eq!(talk.end(), Some(0));
    }
}

#[test]
fn a_client_that_ends() {
    let mut talk = Talk::new(&["-e", SAMPLE]);
    assert_eq!(talk.ask("0x401004"), LEAF);
    drop(talk.output);
    writeln!(talk.input, "0x401004\n0x401004").expect("the tool reads");
    drop(talk.input);
    assert_eq!(talk.child.wait().expect("the tool ends").code(), Some(0));
}

#[test]
fn who_answers_is_told_once() {
    let line = format!("CODE \"{SAMPLE}\" 0x401004\n");
    let output = run(TOOL, &["--explain", "--no-mmap"], &line.repeat(3));
    assert_eq!(String::from_utf8_lossy(&output.stdout), LEAF.repeat(3));
    let wanted = format!("llvm-symbolizer: '{SAMPLE}': answered by liba2l, of {SAMPLE}\n");
    assert_eq!(String::from_utf8_lossy(&output.stderr), wanted);
    let output = run(TOOL, &["--explain", "-e", SAMPLE, "0x401004", "0x1"], "");
    assert_eq!(String::from_utf8_lossy(&output.stderr), wanted);
}

#[test]
fn it_checks_itself() {
    let told = told(&["--self-check", "-e", SAMPLE], "");
    assert!(told.ends_with("units agree in both protocols\n"), "{told}");
}
