//! The line table of a unit (DWARF 5, section 6.2).

use std::ffi::{OsStr, OsString};
use std::ops::Range;
use std::os::unix::ffi::{OsStrExt, OsStringExt};
use std::path::PathBuf;

use gimli::{ColumnType, Dwarf, LineRow, Unit};

use super::owners::{Claim, Owner, Owners};
use super::Reader;
use crate::reply::Frame;

/// The rows of a line table.
#[derive(Debug)]
pub struct Lines {
    sequences: Owners,
    /// The rows of each sequence.
    parts: Vec<Range<usize>>,
    rows: Vec<Row>,
}

#[derive(Debug, Clone, Copy)]
struct Row {
    address: u64,
    file: u64,
    line: u64,
    column: u64,
    discriminator: u64,
}

impl Lines {
    /// The table of a unit; empty where the unit has none.
    pub fn read(unit: &Unit<Reader>) -> gimli::Result<Lines> {
        let mut lines = Lines { sequences: Owners::default(), parts: Vec::new(), rows: Vec::new() };
        let Some(program) = unit.line_program.clone() else {
            return Ok(lines);
        };
        let (mut rows, mut claims, mut begin) = (program.rows(), Vec::new(), 0);
        while let Some((_, row)) = rows.next_row()? {
            if !row.end_sequence() {
                lines.rows.push(Row::of(row));
                continue;
            }
            claims.extend(lines.end_sequence(begin, row.address()));
            begin = lines.rows.len();
        }
        lines.rows.truncate(begin);
        lines.rows.shrink_to_fit();
        lines.sequences = Owners::of(claims);
        Ok(lines)
    }

    /// The sequence of the rows from one on, if it is used: its addresses never fall.
    fn end_sequence(&mut self, begin: usize, end: u64) -> Option<Claim> {
        let rows = &self.rows[begin..];
        let first = rows.first()?.address;
        let rises = rows.windows(2).all(|pair| pair[0].address <= pair[1].address);
        if !rises || rows.last()?.address > end || first >= end {
            self.rows.truncate(begin);
            return None;
        }
        self.parts.push(begin..self.rows.len());
        let owner = (self.parts.len() - 1) as Owner;
        Some(Claim { range: gimli::Range { begin: first, end }, owner })
    }

    /// The place in the source of the code at an address, without a function; none where no row has
    /// it.
    pub fn place(&self, dwarf: &Dwarf<Reader>, unit: &Unit<Reader>, address: u64) -> Option<Frame> {
        Some(self.rows_up_to(address)?.last()?.place(dwarf, unit))
    }

    /// The place of the last row up to an address that has a line.
    pub fn place_before(&self, dwarf: &Dwarf<Reader>, unit: &Unit<Reader>, address: u64) -> Option<Frame> {
        let row = self.rows_up_to(address)?.iter().rfind(|row| row.line > 0)?;
        Some(Frame { is_approximate: true, ..row.place(dwarf, unit) })
    }

    /// The discriminator of the row that has an address.
    pub fn discriminator(&self, address: u64) -> Option<u64> {
        Some(self.rows_up_to(address)?.last()?.discriminator)
    }

    /// The rows of the sequence that has an address, up to that.
    fn rows_up_to(&self, address: u64) -> Option<&[Row]> {
        let rows = &self.rows[self.parts[self.sequences.find(address)? as usize].clone()];
        Some(&rows[..rows.partition_point(|row| row.address <= address)])
    }
}

impl Row {
    fn of(row: &LineRow) -> Row {
        let column = match row.column() {
            ColumnType::LeftEdge => 0,
            ColumnType::Column(column) => column.get(),
        };
        let (line, discriminator) = (row.line().map_or(0, |line| line.get()), row.discriminator());
        Row { address: row.address(), file: row.file_index(), line, column, discriminator }
    }

    fn place(&self, dwarf: &Dwarf<Reader>, unit: &Unit<Reader>) -> Frame {
        place(dwarf, unit, Some(self.file), self.line, self.column)
    }
}

/// A place in a file of the line table of a unit. Where the library reads such units, without a line
/// there is no column.
pub fn place(dwarf: &Dwarf<Reader>, unit: &Unit<Reader>, file: Option<u64>, line: u64, column: u64) -> Frame {
    let column = if line == 0 && unit.header.version() == 5 { 0 } else { column };
    Frame { path: file.and_then(|file| path(dwarf, unit, file)), line, column, ..Frame::default() }
}

/// The path of a file of the line table of a unit: from the folder on in which the compiler ran, by
/// the file's own to its name. Before version 5 file 0 is none.
pub fn path(dwarf: &Dwarf<Reader>, unit: &Unit<Reader>, file: u64) -> Option<Vec<u8>> {
    let header = unit.line_program.as_ref()?.header();
    if header.version() < 5 && file == 0 {
        return None;
    }
    let file = header.file(file)?;
    let mut path = PathBuf::from(OsString::from_vec(folder(dwarf, unit).unwrap_or_default()));
    if file.directory_index() > 0 {
        path.extend(directory_path(dwarf, unit, file.directory_index()).map(OsString::from_vec));
    }
    let name = dwarf.attr_string(unit, file.path_name()).ok()?;
    path.push(OsStr::from_bytes(name.bytes()));
    Some(path.into_os_string().into_encoded_bytes()).filter(|path| !path.is_empty())
}

/// The folder in which the compiler ran: the first one of the line table, else an attribute of the
/// unit.
pub fn folder(dwarf: &Dwarf<Reader>, unit: &Unit<Reader>) -> Option<Vec<u8>> {
    directory_path(dwarf, unit, 0).or_else(|| unit.comp_dir.as_ref().map(|folder| folder.bytes().to_vec()))
}

fn directory_path(dwarf: &Dwarf<Reader>, unit: &Unit<Reader>, number: u64) -> Option<Vec<u8>> {
    let directory = unit.line_program.as_ref()?.header().directory(number)?;
    Some(dwarf.attr_string(unit, directory).ok()?.bytes().to_vec())
}
