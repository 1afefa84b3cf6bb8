//! Passes logs from the command line or from standard input.
#![forbid(unsafe_code)]

use std::fs::File;
use std::io::{self, ErrorKind, Write};
use std::os::unix::ffi::OsStrExt;
use std::path::Path;
use std::process::ExitCode;

use a2l_symbolizer::silence_panics;
use a2l_trace::{Arguments, Reports, Stream};
use clap::Parser;

/// The status of all failures.
const FAILED: u8 = 1;

fn main() -> ExitCode {
    let arguments = Arguments::parse();
    silence_panics();
    let message = "a2l-trace: a file was cut off while it was read\n";
    match a2l::end_where_cut_off(message, FAILED.into()).map_err(|why| why.to_string()).and_then(|()| run(&arguments)) {
        Ok(true) => ExitCode::SUCCESS,
        Ok(false) => ExitCode::from(FAILED),
        Err(why) => {
            say(&why);
            ExitCode::from(FAILED)
        }
    }
}

/// Passes all logs; whether each of them could be read.
fn run(arguments: &Arguments) -> Result<bool, String> {
    let (mut modules, mut reports, mut all_read) = (arguments.files(), Reports::default(), true);
    let mut logs: Vec<Option<&Path>> = arguments.logs.iter().map(|path| Some(path.as_path())).collect();
    if logs.is_empty() {
        logs.push(None);
    }
    for log in logs {
        let name = log.map(|path| path.as_os_str().as_bytes().to_vec());
        let process = arguments.process()?;
        let mut stream = Stream::new(&mut modules, &mut reports, arguments.output(), name, process);
        let ended = match log.map(File::open) {
            None => stream.run(io::stdin().lock(), io::stdout().lock()),
            Some(Ok(file)) => stream.run(file, io::stdout().lock()),
            Some(Err(why)) => Err(why),
        };
        match ended {
            Err(why) if why.kind() == ErrorKind::BrokenPipe => return Ok(all_read),
            Err(why) => {
                let name = log.unwrap_or(Path::new("standard input")).display();
                say(&format!("'{name}': {why}"));
                all_read = false;
            }
            Ok(()) => {}
        }
    }
    Ok(all_read)
}

fn say(why: &str) {
    // Nobody is left who could be told where this can't be written.
    let _ = writeln!(io::stderr(), "a2l-trace: {why}");
}
