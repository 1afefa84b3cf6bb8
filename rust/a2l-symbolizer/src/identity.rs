//! Who the program is, by the name that it was started by: which tool it stands for.

use std::ffi::OsStr;
use std::os::unix::ffi::OsStrExt;
use std::path::Path;

use a2l::Tools;

use crate::numbers::Spelling;

/// The tool that this program stands for.
#[derive(Debug, Clone, Copy, PartialEq, Eq, clap::ValueEnum)]
pub enum Identity {
    LlvmSymbolizer,
    LlvmAddr2line,
    Addr2line,
}

/// How requests are spelled.
#[derive(Debug, Clone, Copy, PartialEq, Eq)]
pub enum Protocol {
    Llvm(Spelling),
    Gnu,
}

impl Identity {
    /// Who is meant by the path of a program. Whoever isn't called addr2line is llvm-symbolizer.
    pub fn of_path(path: &OsStr) -> Identity {
        let name = Path::new(path).file_name().unwrap_or(path).as_bytes();
        if name.starts_with(b"llvm-addr2line") {
            Identity::LlvmAddr2line
        } else if name.windows(b"addr2line".len()).any(|part| part == b"addr2line") {
            Identity::Addr2line
        } else {
            Identity::LlvmSymbolizer
        }
    }

    /// The name by which errors are reported.
    pub fn name(self) -> &'static str {
        match self {
            Identity::LlvmSymbolizer => "llvm-symbolizer",
            Identity::LlvmAddr2line => "llvm-addr2line",
            Identity::Addr2line => "addr2line",
        }
    }

    /// One of LLVM's two tools.
    pub fn is_llvm(self) -> bool {
        self != Identity::Addr2line
    }

    /// Whose names are chosen and written.
    pub fn tools(self) -> Tools {
        if self.is_llvm() {
            Tools::Llvm
        } else {
            Tools::Gnu
        }
    }

    pub fn protocol(self) -> Protocol {
        match self {
            Identity::LlvmSymbolizer => Protocol::Llvm(Spelling::OfC),
            Identity::LlvmAddr2line => Protocol::Llvm(Spelling::Hexadecimal),
            Identity::Addr2line => Protocol::Gnu,
        }
    }
}
