//! Frames that the system makes for a signal, by the unwind information of a file: an unwinder knows
//! them by the S in the augmentation of their entry in .eh_frame.

use std::ops::Range;

use gimli::{BaseAddresses, EhFrame, EhFrameHdr, RunTimeEndian, UnwindSection};
use object::{Object, ObjectSection};

/// Where the unwind information of a file is.
#[derive(Debug, Clone, PartialEq, Eq)]
pub struct Signals {
    table: Section,
    entries: Section,
    endian: RunTimeEndian,
    address_size: u8,
}

#[derive(Debug, Clone, PartialEq, Eq)]
struct Section {
    range: Range<usize>,
    address: u64,
}

impl Section {
    fn of(file: &object::File<'_>, name: &str) -> Option<Section> {
        let section = file.section_by_name(name)?;
        let (offset, size) = section.file_range()?;
        let begin = usize::try_from(offset).ok()?;
        Some(Section { range: begin..begin.checked_add(usize::try_from(size).ok()?)?, address: section.address() })
    }
}

impl Signals {
    /// Those of a file; none where it has no table of its unwind information.
    pub fn of_file(bytes: &[u8]) -> Option<Signals> {
        let file = object::File::parse(bytes).ok()?;
        let endian = if file.is_little_endian() { RunTimeEndian::Little } else { RunTimeEndian::Big };
        let address_size = if file.is_64() { 8 } else { 4 };
        let (table, entries) = (Section::of(&file, ".eh_frame_hdr")?, Section::of(&file, ".eh_frame")?);
        Some(Signals { table, entries, endian, address_size })
    }

    /// Whether the code at an address of the file is that to which a signal handler returns.
    pub fn has(&self, bytes: &[u8], address: u64) -> bool {
        self.entry_has_mark(bytes, address).unwrap_or(false)
    }

    fn entry_has_mark(&self, bytes: &[u8], address: u64) -> Option<bool> {
        let (table, entries) = (bytes.get(self.table.range.clone())?, bytes.get(self.entries.range.clone())?);
        let bases = BaseAddresses::default().set_eh_frame_hdr(self.table.address).set_eh_frame(self.entries.address);
        let parsed = EhFrameHdr::new(table, self.endian).parse(&bases, self.address_size).ok()?;
        let mut entries = EhFrame::new(entries, self.endian);
        entries.set_address_size(self.address_size);
        let found = parsed.table()?.fde_for_address(&entries, &bases, address, EhFrame::cie_from_offset).ok()?;
        Some(found.is_signal_trampoline())
    }
}
