//! Puts functions, files and lines into crash logs: each line goes through byte for byte, and behind
//! each frame that is known stand its functions.
#![forbid(unsafe_code)]

// The text, and what lines of it say.
pub mod forms;
mod log;
mod scan;
mod sighting;
mod stream;

// The files that are meant, and where in them an address is.
mod answers;
mod calls;
mod layout;
mod modules;
mod process;
mod process_files;
mod resolve;
mod signals;
mod symbols;

// The program.
mod arguments;
mod output;
mod reports;

pub use arguments::Arguments;
pub use reports::Reports;
pub use stream::Stream;
