//! Behind each line its functions, one a line.

use crate::log::Row;
use crate::modules::Reason;
use crate::output::{name, place, say, Line};

/// Stands before what is no line of the log.
const INDENT: &str = "        ";

/// Writes a line, and its functions behind it.
pub fn write(line: &Line<'_>, rows: &[Row<'_>], out: &mut Vec<u8>) {
    out.extend_from_slice(line.text);
    out.extend_from_slice(line.end);
    let begin = |out: &mut Vec<u8>| {
        // A line that the log doesn't end is ended before what follows, and that isn't.
        if line.end.is_empty() {
            out.push(b'\n');
        }
        out.extend_from_slice(INDENT.as_bytes());
    };
    let end: &[u8] = if line.end.is_empty() { b"" } else { b"\n" };
    for row in rows {
        match &row.outcome {
            Ok(answer) => {
                for frame in &answer.frames {
                    begin(out);
                    out.extend_from_slice(name(frame));
                    place(" at ", frame, out);
                    out.extend_from_slice(end);
                }
            }
            Err(Reason::NoModule | Reason::NoFile(_)) => {}
            Err(why) => {
                begin(out);
                say(out, format_args!("({why})"));
                out.extend_from_slice(end);
            }
        }
    }
}
