//! Replies in LLVM's JSON: an object on a line of its own for each request.

use std::borrow::Cow;
use std::os::unix::ffi::OsStrExt;

use serde_json::{json, Map, Value};

use crate::llvm::module_of;
use crate::reply::{Answer, Frame, Reply};
use crate::request::{Kind, Module, Request, Target};
use crate::shape::Shape;
use crate::source_lines::around;

/// Writes a value on a line of its own.
pub fn write(value: &Value, out: &mut Vec<u8>) {
    out.extend_from_slice(value.to_string().as_bytes());
    out.push(b'\n');
}

/// The object of a reply, whose answer is as a shape shows it. `given` is the module of the command
/// line.
pub fn object(shape: &Shape, given: Option<&Module>, reply: &Reply<'_>) -> Value {
    let Some(request) = reply.request else {
        let module = given.filter(|_| !reply.line.is_empty()).map(module_name);
        let module = module.unwrap_or_else(|| text(module_of(reply.line)));
        return json!({ "ModuleName": module, "Symbol": [symbol(&Frame::default())] });
    };
    let mut object = Map::new();
    object.insert("ModuleName".to_owned(), json!(module_name(&request.module)));
    match &request.target {
        Target::Address(address) => object.insert("Address".to_owned(), json!(hexadecimal(*address))),
        Target::Symbol { name, .. } => object.insert("SymName".to_owned(), json!(text(name))),
    };
    let (name, value) = content(shape, request, reply);
    object.insert(name.to_owned(), value);
    Value::Object(object)
}

/// The object for a file of the command line that can't be opened.
pub fn unopened(module: &Module, why: &str) -> Value {
    json!({ "ModuleName": module_name(module), "Address": hexadecimal(0), "Error": { "Message": why } })
}

fn content(shape: &Shape, request: &Request, reply: &Reply<'_>) -> (&'static str, Value) {
    if let Some(message) = &reply.failure {
        return ("Error", json!({ "Message": message }));
    }
    match &reply.answer {
        Answer::Places(frames) => ("Loc", frames.iter().map(symbol).collect()),
        Answer::Frames(frames) if frames.is_empty() => ("Symbol", json!([symbol(&Frame::default())])),
        Answer::Frames(frames) => ("Symbol", frames.iter().map(|frame| with_source(shape, frame)).collect()),
        Answer::Variable(variable) => {
            let (name, start, size) =
                variable.as_ref().map_or((Cow::Borrowed(""), 0, 0), |it| (text(&it.name), it.start, it.size));
            ("Data", json!({ "Name": name, "Start": hexadecimal(start), "Size": hexadecimal(size) }))
        }
        Answer::Locals => {
            debug_assert_eq!(request.kind, Kind::Frame);
            ("Frame", json!([]))
        }
    }
}

/// A frame with the source around its place, where that is shown and can be read.
fn with_source(shape: &Shape, frame: &Frame) -> Value {
    let mut object = symbol(frame);
    let path = frame.path.as_ref().filter(|_| shape.context > 0);
    if let Some(lines) = path.and_then(|path| around(path, frame.line, shape.context)) {
        object["Source"] = json!(text(&lines));
    }
    object
}

fn symbol(frame: &Frame) -> Value {
    let mut object = json!({
        "FunctionName": frame.name.as_deref().map_or(Cow::Borrowed(""), text),
        "FileName": frame.path.as_deref().map_or(Cow::Borrowed(""), text),
        "Line": frame.line,
        "Column": frame.column,
        "Discriminator": frame.discriminator,
        "StartAddress": frame.start.address.map(hexadecimal).unwrap_or_default(),
        "StartFileName": frame.start.path.as_deref().map_or(Cow::Borrowed(""), text),
        "StartLine": frame.start.line,
    });
    if frame.is_approximate {
        object["Approximate"] = json!(true);
    }
    object
}

fn module_name(module: &Module) -> Cow<'_, str> {
    match module {
        Module::Path(path) => text(path.as_os_str().as_bytes()),
        Module::BuildId(id) => id.iter().map(|byte| format!("{byte:02X}")).collect(),
    }
}

fn hexadecimal(number: u64) -> String {
    format!("{number:#x}")
}

/// Bytes that are no UTF-8 are replaced: JSON has none.
fn text(bytes: &[u8]) -> Cow<'_, str> {
    String::from_utf8_lossy(bytes)
}
