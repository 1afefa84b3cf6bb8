//! LLVM's markup (docs/SymbolizerMarkupFormat.rst): `{{{reset}}}`, `{{{module:0:prog:elf:BUILD ID}}}`,
//! `{{{mmap:0x1000:0x1000:load:0:rx:0x0}}}` say where files are, and `{{{bt:0:0x1004:ra}}}`,
//! `{{{pc:0x1004}}}`, `{{{data:0x2000}}}` are frames, instructions and variables.
//!
//! An address is one of the process. That of `pc` is an instruction, that of `bt` a return address,
//! unless `:ra` or `:pc` says otherwise (llvm/lib/DebugInfo/Symbolize/MarkupFilter.cpp).

use std::borrow::Cow;
use std::collections::{BTreeMap, HashMap};

use memchr::memmem;

use crate::scan::{bytes, decimal, prefixed};
use crate::sighting::{Form, Kind, Place, Sighting};

/// What the elements so far have said.
#[derive(Debug, Default)]
pub struct Markup {
    modules: HashMap<u64, Module>,
    /// By their first address.
    mappings: BTreeMap<u64, Mapping>,
}

#[derive(Debug, Clone)]
struct Module {
    name: Vec<u8>,
    build_id: Option<Vec<u8>>,
}

#[derive(Debug)]
struct Mapping {
    size: u64,
    module: u64,
    /// The address that the file has for the first one.
    address: u64,
}

/// So many modules and mappings are kept at most, with names that are no longer.
const MOST: usize = 1 << 14;
const LONGEST: usize = 4096;

impl Markup {
    /// The frames of the elements of a line; what the others say is kept.
    pub fn read<'l>(&mut self, line: &'l [u8]) -> Vec<Sighting<'l>> {
        let (mut found, mut from) = (Vec::new(), 0);
        while let Some(begin) = memmem::find(&line[from..], b"{{{").map(|at| from + at) {
            let Some(length) = memmem::find(&line[begin + 3..], b"}}}") else {
                break;
            };
            from = begin + 3 + length + 3;
            let fields: Vec<_> = line[begin + 3..from - 3].splitn(MOST_FIELDS, |&byte| byte == b':').collect();
            found.extend(self.element(&fields).map(|it| Sighting { span: begin..from, ..it }));
        }
        found
    }

    fn element<'l>(&mut self, fields: &[&'l [u8]]) -> Option<Sighting<'l>> {
        match fields {
            [b"reset"] => *self = Markup::default(),
            [b"module", id, name, b"elf", build_id] => {
                let module = Module { name: name.to_vec(), build_id: bytes(build_id) };
                let id = number(id).filter(|_| self.modules.len() < MOST && name.len() <= LONGEST)?;
                self.modules.insert(id, module);
            }
            [b"mmap", start, size, b"load", module, _, address] => {
                let mapping = Mapping { size: number(size)?, module: number(module)?, address: number(address)? };
                let start = number(start).filter(|_| self.mappings.len() < MOST)?;
                self.mappings.insert(start, mapping);
            }
            [b"bt", frame, address, kind @ ..] => {
                let (frame, b"") = decimal(frame)? else { return None };
                return self.sighting(Some(frame), number(address)?, kind_of(kind, true)?);
            }
            [b"pc", address, kind @ ..] => return self.sighting(None, number(address)?, kind_of(kind, false)?),
            [b"data", address] => return self.sighting(None, number(address)?, Kind::Data),
            _ => {}
        }
        None
    }

    /// The frame at an address, where a mapping holds it.
    fn sighting<'l>(&self, number: Option<u64>, process: u64, kind: Kind) -> Option<Sighting<'l>> {
        let process = if kind == Kind::Call { process.checked_sub(1)? } else { process };
        let (start, mapping) = self.mappings.range(..=process).next_back()?;
        let offset = Some(process - start).filter(|&offset| offset < mapping.size)?;
        let module = self.modules.get(&mapping.module)?;
        Some(Sighting {
            form: Form::Markup,
            number,
            module: Some(Cow::Owned(module.name.clone())),
            build_id: module.build_id.clone(),
            place: Place::Address(mapping.address.wrapping_add(offset)),
            process: Some(process),
            kind,
            span: 0..0,
        })
    }
}

/// No element has more fields.
const MOST_FIELDS: usize = 8;

/// A number of C, as `%i` of scanf reads it but for octal ones.
fn number(text: &[u8]) -> Option<u64> {
    match prefixed(text).or_else(|| decimal(text))? {
        (number, b"") => Some(number),
        _ => None,
    }
}

/// What an address is by the field behind it. One of a call is made of a return address.
fn kind_of(fields: &[&[u8]], is_frame: bool) -> Option<Kind> {
    match fields {
        [b"ra"] => Some(Kind::Call),
        [b"pc"] => Some(Kind::Exact),
        [] => Some(if is_frame { Kind::Call } else { Kind::Exact }),
        _ => None,
    }
}

#[cfg(test)]
mod tests {
    use super::*;

    const CONTEXT: &str = "{{{reset}}}{{{module:0:a.o:elf:0aff}}} {{{mmap:0x1000:0x100:load:0:rx:0x20}}}";

    fn read(line: &str) -> Vec<(Place<'static>, Kind, Option<u64>)> {
        let mut markup = Markup::default();
        assert!(markup.read(CONTEXT.as_bytes()).is_empty());
        let line: &'static [u8] = line.to_owned().leak().as_bytes();
        markup.read(line).into_iter().map(|it| (it.place, it.kind, it.number)).collect()
    }

    #[test]
    fn elements() {
        for (line, address, kind, number) in [
            ("{{{pc:0x1004}}}", 0x24, Kind::Exact, None),
            ("{{{pc:0x1004:ra}}}", 0x23, Kind::Call, None),
            ("x {{{bt:3:0x1004}}} y", 0x23, Kind::Call, Some(3)),
            ("{{{bt:0:0x1004:pc}}}", 0x24, Kind::Exact, Some(0)),
            ("{{{data:4100}}}", 0x24, Kind::Data, None),
        ] {
            assert_eq!(read(line), [(Place::Address(address), kind, number)], "{line}");
        }
        assert_eq!(read("{{{pc:0x1004}}}{{{pc:0x1005}}}").len(), 2);
    }

    #[test]
    fn no_elements() {
        for line in ["{{{pc:0x1100}}}", "{{{pc:0xfff}}}", "{{{pc:0x1004", "{{{bt:x:0x1004}}}", "{{{pc:0x1004:xx}}}"] {
            assert!(read(line).is_empty(), "{line}");
        }
        assert!(read("{{{reset}}}{{{pc:0x1004}}}").is_empty());
    }
}
