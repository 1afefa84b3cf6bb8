//! What is answered to a request, before any style writes it.

use crate::request::Request;

/// A function at an address, and where it stands in the source.
#[derive(Debug, Clone, Default, PartialEq, Eq)]
pub struct Frame {
    /// The function's name, by its bytes; never empty.
    pub name: Option<Vec<u8>>,
    /// The path of the source file, by its bytes; never empty.
    pub path: Option<Vec<u8>>,
    /// The line, counted from 1; 0 where it isn't known.
    pub line: u64,
    /// The column, counted from 1; 0 where it isn't known.
    pub column: u64,
    /// The line is that of the row before, since the address has none.
    pub is_approximate: bool,
    /// Tells code of one place apart; 0 where there is nothing to tell.
    pub discriminator: u64,
    pub start: Start,
}

/// Where a function begins, as far as it was asked for.
#[derive(Debug, Clone, Default, PartialEq, Eq)]
pub struct Start {
    pub address: Option<u64>,
    /// The path of the source file that declares the function, by its bytes; never empty.
    pub path: Option<Vec<u8>>,
    /// The line of the declaration, counted from 1; 0 where it isn't known.
    pub line: u64,
}

impl Frame {
    /// Nothing is known of it.
    pub fn is_unknown(&self) -> bool {
        self.name.is_none() && self.path.is_none()
    }
}

/// A variable: what is at an address of data.
#[derive(Debug, Clone, PartialEq, Eq)]
pub struct Variable {
    /// Its name, by its bytes; never empty.
    pub name: Vec<u8>,
    /// Its first address.
    pub start: u64,
    /// Its size in bytes, as far as it is known; else 0.
    pub size: u64,
    /// The path of the source file that declares it, by its bytes; never empty.
    pub path: Option<Vec<u8>>,
    /// The line of the declaration, counted from 1; 0 where it isn't known.
    pub line: u64,
}

/// What is known at the address of a request.
#[derive(Debug, Clone, PartialEq, Eq)]
pub enum Answer {
    /// The functions, innermost first; none where nothing is known.
    Frames(Vec<Frame>),
    /// A function at each of several addresses; none where nothing is known.
    Places(Vec<Frame>),
    /// The variable.
    Variable(Option<Variable>),
    /// The variables of the stack frame, of which nothing is known.
    Locals,
}

/// A line and what is answered to it.
#[derive(Debug)]
pub struct Reply<'r> {
    /// The line, without its end.
    pub line: &'r [u8],
    /// What it asks for; none where it has no number.
    pub request: Option<&'r Request>,
    /// The address that was asked about, by its number or by a name.
    pub address: Option<u64>,
    /// Why the file can't be asked.
    pub failure: Option<String>,
    pub answer: Answer,
}
