//! Requests: what is asked of which file at which address, whatever protocol spells it.

use std::path::PathBuf;

/// What is asked for.
#[derive(Debug, Clone, Copy, PartialEq, Eq)]
pub enum Kind {
    /// The functions at an address of code.
    Code,
    /// The variable at an address of data.
    Data,
    /// The variables in the stack frame of the function at an address of code.
    Frame,
}

/// The file that is asked about.
#[derive(Debug, Clone, PartialEq, Eq, Hash)]
pub enum Module {
    Path(PathBuf),
    /// A build id, by its bytes.
    BuildId(Vec<u8>),
}

/// Where in the file.
#[derive(Debug, Clone, PartialEq, Eq)]
pub enum Target {
    Address(u64),
    /// So many bytes after the begin of what has this name in the symbol table.
    Symbol {
        name: Vec<u8>,
        offset: u64,
    },
}

/// A request.
#[derive(Debug, Clone, PartialEq, Eq)]
pub struct Request {
    pub kind: Kind,
    pub module: Module,
    pub target: Target,
}
