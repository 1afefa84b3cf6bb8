//! A symbolizer that other tools start and talk with, line by line: in LLVM's protocol, in GNU's,
//! or in JSON. Answers of DWARF 5 come from the proved library; the conversation around them is
//! tested.
#![deny(unsafe_code)]

// The conversation: who is spoken for, what is asked, and how replies are written.
mod arguments;
mod conversation;
mod gnu;
mod identity;
mod json;
mod llvm;
mod names;
mod numbers;
mod plain;
mod reply;
mod request;
mod response_files;
mod self_check;
mod settings;
mod shape;
mod source_lines;
mod writer;

// The files that are asked about, and where their debug information is.
mod compression;
mod debug_files;
mod image;
mod name_index;
mod open_file;
mod placement;
mod program;
mod programs;
mod sections;
mod symbol_entries;
mod symbols;

// Debug information that the library doesn't read.
mod dwarf;
mod fallback;
mod guard;
mod relocated;
mod units;
mod variables;

pub use arguments::{identity_of, Arguments};
pub use conversation::{Conversation, Unopened};
pub use debug_files::DebugFiles;
pub use gnu::check_target;
pub use guard::silence_panics;
pub use identity::Identity;
pub use names::{Length, Names};
pub use open_file::{OpenFile, Opener};
pub use plain::without_controls;
pub use program::{Program, Sources};
pub use programs::{CacheSize, Opened, Programs};
pub use reply::{Frame, Variable};
pub use request::Module;
pub use response_files::with_response_files;
pub use self_check::self_check;
pub use settings::conversation;
