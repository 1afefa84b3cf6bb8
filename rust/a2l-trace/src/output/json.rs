//! A row for each frame, an object of JSON on a line of its own.

use std::borrow::Cow;

use a2l_symbolizer::{without_controls, Frame};
use serde_json::{json, Value};

use crate::log::Row;
use crate::modules::hexadecimal;
use crate::output::{say, Line};

/// Writes the rows of a line.
pub fn write(line: &Line<'_>, rows: &[Row<'_>], out: &mut Vec<u8>) {
    rows.iter().for_each(|row| say(out, format_args!("{}\n", object(line, row))));
}

fn object(line: &Line<'_>, row: &Row<'_>) -> Value {
    let answer = row.outcome.as_ref().ok();
    let build_id = row.build_id.as_ref().or(answer.and_then(|answer| answer.build_id.as_ref()));
    json!({
        "log": line.log.map(text),
        "line": line.number,
        "form": row.sighting.form.name(),
        "number": row.sighting.number,
        "module": Some(&row.module).filter(|module| !module.is_empty()).map(|module| text(&without_controls(module)).into_owned()),
        "file": answer.map(|answer| text(&answer.file).into_owned()),
        "build_id": build_id.map(|id| hexadecimal(id)),
        "kind": row.sighting.kind.name(),
        "process_address": row.sighting.process.map(|address| format!("{address:#x}")),
        "address": answer.map(|answer| format!("{:#x}", answer.address)),
        "frames": answer.map_or(&[][..], |answer| &answer.frames).iter().map(function).collect::<Vec<_>>(),
        "reason": row.outcome.as_ref().err().map(ToString::to_string),
    })
}

fn function(frame: &Frame) -> Value {
    json!({
        "function": frame.name.as_deref().map(text),
        "file": frame.path.as_deref().map(text),
        "line": Some(frame.line).filter(|&line| line > 0),
        "column": Some(frame.column).filter(|&column| column > 0),
    })
}

/// Bytes that are no UTF-8 are replaced: JSON has none.
fn text(bytes: &[u8]) -> Cow<'_, str> {
    String::from_utf8_lossy(bytes)
}
