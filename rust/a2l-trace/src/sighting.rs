//! What a line says of a frame, before any file is asked.

use std::borrow::Cow;
use std::ops::Range;

/// Whose format a line has.
#[derive(Debug, Clone, Copy, PartialEq, Eq, Hash)]
pub enum Form {
    Glibc,
    Sanitizer,
    Coredump,
    EuStack,
    Gdb,
    Tombstone,
    Markup,
    Rust,
    Kernel,
    Bare,
}

impl Form {
    /// The name by which rows have it.
    pub fn name(self) -> &'static str {
        match self {
            Form::Glibc => "glibc",
            Form::Sanitizer => "sanitizer",
            Form::Coredump => "systemd-coredump",
            Form::EuStack => "eu-stack",
            Form::Gdb => "gdb",
            Form::Tombstone => "tombstone",
            Form::Markup => "markup",
            Form::Rust => "rust",
            Form::Kernel => "kernel",
            Form::Bare => "address",
        }
    }
}

/// What the address of a frame is.
#[derive(Debug, Clone, Copy, PartialEq, Eq)]
pub enum Kind {
    /// That of the instruction which ran.
    Exact,
    /// That of the instruction after a call, but where a signal came instead of a call.
    Return,
    /// One of a byte of the call: the producer has subtracted 1 from a return address.
    Call,
    /// The same, of a producer that doesn't know where a signal came instead of a call.
    Subtracted,
    /// One of data.
    Data,
}

impl Kind {
    /// The name by which rows have it.
    pub fn name(self) -> &'static str {
        match self {
            Kind::Exact => "pc",
            Kind::Return => "return address",
            Kind::Call | Kind::Subtracted => "call",
            Kind::Data => "data",
        }
    }
}

/// How a line says where in its module a frame is.
#[derive(Debug, Clone, PartialEq, Eq)]
pub enum Place<'l> {
    /// An address as the file has it.
    Address(u64),
    /// An address of the process that the file has too, since it isn't moved.
    Unmoved(u64),
    /// So many bytes after the first page of the file in memory.
    FromStart(u64),
    /// So many bytes after a symbol of the dynamic table.
    FromDynamic { symbol: &'l [u8], offset: u64 },
    /// So many bytes after a function, which the kernel takes to be of a size.
    FromFunction { symbol: &'l [u8], offset: u64, size: u64 },
    /// Only the address of the process is known.
    Process,
}

/// A frame that a line has.
#[derive(Debug, Clone, PartialEq, Eq)]
pub struct Sighting<'l> {
    pub form: Form,
    /// The number of the frame in its trace.
    pub number: Option<u64>,
    /// The path or the name of the module.
    pub module: Option<Cow<'l, [u8]>>,
    pub build_id: Option<Vec<u8>>,
    pub place: Place<'l>,
    /// The address in the process.
    pub process: Option<u64>,
    pub kind: Kind,
    /// The bytes of the line that say it.
    pub span: Range<usize>,
}
