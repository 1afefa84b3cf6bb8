//! Starts the conversation that the command line asks for.
#![forbid(unsafe_code)]

use std::ffi::{OsStr, OsString};
use std::io::{self, ErrorKind, Write};
use std::os::unix::ffi::OsStrExt;
use std::process::ExitCode;

use a2l_symbolizer::{
    check_target, conversation, identity_of, self_check, silence_panics, with_response_files, Arguments, Identity,
    Unopened,
};

/// The status of all failures, as the tools have it for which this one stands.
const FAILED: u8 = 1;

fn main() -> ExitCode {
    let words: Vec<OsString> = std::env::args_os().collect();
    let (program, words) =
        words.split_first().map_or((OsStr::new(""), &[][..]), |(name, rest)| (name.as_os_str(), rest));
    let identity = identity_of(words).unwrap_or_else(|| Identity::of_path(program));
    match Arguments::parse_for(identity, &with_response_files(identity, words)) {
        Ok(arguments) if arguments.version => version(identity),
        Ok(arguments) => start(identity, &arguments),
        Err(why) if !why.use_stderr() => finish(identity, write!(io::stdout(), "{why}")),
        Err(why) => fail(identity, &Arguments::refusal(identity, &why)),
    }
}

fn version(identity: Identity) -> ExitCode {
    let version = env!("CARGO_PKG_VERSION");
    finish(identity, writeln!(io::stdout(), "a2l-symbolizer {version}, in the place of {}", identity.name()))
}

fn start(identity: Identity, arguments: &Arguments) -> ExitCode {
    silence_panics();
    let message = "a2l-symbolizer: a file was cut off while it was read; --no-mmap reads files whole\n";
    if let Err(why) = a2l::end_where_cut_off(message, FAILED.into()) {
        return fail(identity, &why.to_string());
    }
    if arguments.self_check {
        return match self_check(arguments) {
            Ok(report) => finish(identity, writeln!(io::stdout(), "{report}")),
            Err(why) => fail(identity, &why),
        };
    }
    if let Err(why) = check_target(identity, arguments) {
        return fail(identity, &why);
    }
    let mut conversation = conversation(identity, arguments);
    if let Err(why) = conversation.find_section() {
        return end(identity, &why);
    }
    if arguments.requests.is_empty() {
        let ended = conversation.run(io::stdin().lock(), io::stdout().lock());
        return match finish(identity, ended) {
            ExitCode::SUCCESS if conversation.has_failed() => ExitCode::from(FAILED),
            status => status,
        };
    }
    match conversation.open_module() {
        Ok(()) => {}
        Err(Unopened::Line(why)) => return fail(identity, &why),
        Err(Unopened::Object(object)) => {
            finish(identity, writeln!(io::stdout(), "{object}"));
            return ExitCode::from(FAILED);
        }
    }
    let lines: Vec<&[u8]> = arguments.requests.iter().map(|word| word.as_bytes()).collect();
    finish(identity, conversation.reply_to_all(&lines, io::stdout().lock()))
}

/// The status after all was written. Where nobody reads any more, there is nothing left to do.
fn finish(identity: Identity, ended: io::Result<()>) -> ExitCode {
    match ended {
        Err(why) if why.kind() != ErrorKind::BrokenPipe => fail(identity, &why.to_string()),
        _ => ExitCode::SUCCESS,
    }
}

/// LLVM's tools call an error one, and GNU's don't.
fn fail(identity: Identity, why: &str) -> ExitCode {
    if identity.is_llvm() {
        end(identity, &format!("error: {why}"))
    } else {
        end(identity, why)
    }
}

fn end(identity: Identity, why: &str) -> ExitCode {
    // Nobody is left who could be told where this can't be written.
    let _ = writeln!(io::stderr(), "{}: {why}", identity.name());
    ExitCode::from(FAILED)
}
