//! A file with a context over it, as one value.

use std::sync::Arc;

use crate::{Context, Error, File, Frame};

/// An open file: its bytes and a [`Context`] over them, which needs no lifetime.
pub struct Program {
    // The context is dropped before the bytes that it reads.
    context: Context<'static>,
    file: Arc<File>,
}

impl Program {
    /// Opens a file that is in memory; the context keeps so many units.
    pub fn open(file: Arc<File>, capacity: usize) -> Result<Program, Error> {
        // SAFETY: the bytes of a `File` stay at their address, and the program keeps it for as long
        // as the context. No method gives out what would outlive the program.
        let bytes: &'static [u8] = unsafe { std::slice::from_raw_parts(file.as_ptr(), file.len()) };
        Ok(Program { context: Context::with_capacity(bytes, capacity)?, file })
    }

    /// The bytes of the file.
    pub fn file(&self) -> &Arc<File> {
        &self.file
    }

    /// The functions at an address, innermost first, and the offset of their unit; none where no
    /// unit covers it.
    pub fn find_frames(&mut self, address: u64) -> Result<Option<UnitFrames<'_>>, Error> {
        let frames: Vec<Frame<'_>> = self.context.find_frames(address)?.collect();
        let Some(unit) = self.context.unit_of(0)? else {
            return Ok(None);
        };
        Ok(Some(UnitFrames { unit, frames }))
    }

    /// The unit of each of these addresses, by its offset in .debug_info; none where no unit covers
    /// the address, and none where the unit can't be read.
    pub fn find_units(&mut self, addresses: &[u64]) -> Result<Vec<Option<u64>>, Error> {
        self.context.find_all_locations(addresses)?;
        Ok((0..addresses.len()).map(|place| self.context.unit_of(place).ok().flatten()).collect())
    }

    /// The first address of each piece of code that has one location, in order.
    pub fn find_starts(&mut self) -> Result<Vec<u64>, Error> {
        let pieces = self.context.find_location_range(0, u64::MAX)?;
        Ok(pieces.into_iter().map(|piece| piece.begin).collect())
    }
}

/// The functions at an address, in one unit.
#[derive(Debug, Clone, PartialEq, Eq)]
pub struct UnitFrames<'a> {
    /// The offset of the unit in .debug_info.
    pub unit: u64,
    /// The functions, innermost first.
    pub frames: Vec<Frame<'a>>,
}
