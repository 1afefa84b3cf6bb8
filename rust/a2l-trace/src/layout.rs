//! How a file lies in memory, by its program headers; and its build id.

use object::elf::{FileHeader32, FileHeader64, PF_X, PT_LOAD};
use object::read::elf::{FileHeader, ProgramHeader};
use object::read::FileKind;
use object::{Endianness, Object};

/// A loaded part of a file.
#[derive(Debug, Clone, Copy, PartialEq, Eq)]
pub struct Segment {
    /// Its address as the file has it.
    pub address: u64,
    /// Where its bytes are in the file, and how many there are.
    pub offset: u64,
    pub size: u64,
    pub executable: bool,
    pub align: u64,
}

/// What is known of a file.
#[derive(Debug, Clone, Default, PartialEq, Eq)]
pub struct Layout {
    /// In the order of the program headers, which is that of addresses.
    pub segments: Vec<Segment>,
    pub build_id: Option<Vec<u8>>,
}

impl Layout {
    /// That of a file; an empty one where it can't be read.
    pub fn of_file(bytes: &[u8]) -> Layout {
        let build_id = object::File::parse(bytes).ok().and_then(|file| Some(file.build_id().ok()??.to_vec()));
        let layout = Layout::of_headers(bytes);
        Layout { build_id: build_id.or(layout.build_id), ..layout }
    }

    /// That of the first bytes of a file, as they are in the memory of a process; an empty one where
    /// the headers aren't there.
    pub fn of_headers(bytes: &[u8]) -> Layout {
        let layout = match FileKind::parse(bytes) {
            Ok(FileKind::Elf32) => of_elf::<FileHeader32<Endianness>>(bytes),
            Ok(FileKind::Elf64) => of_elf::<FileHeader64<Endianness>>(bytes),
            _ => None,
        };
        layout.unwrap_or_default()
    }

    /// Whether an address of the file is in a segment of code.
    pub fn has_code(&self, address: u64) -> bool {
        let mut code = self.segments.iter().filter(|segment| segment.executable);
        code.any(|segment| address.checked_sub(segment.address).is_some_and(|offset| offset < segment.size))
    }

    /// The address of the first page, from which libdw counts (`dwfl_module_info`): that of the
    /// lowest segment, rounded down as the segment is aligned.
    pub fn start(&self) -> Option<u64> {
        self.segments.iter().map(|segment| segment.address & segment.align.max(1).wrapping_neg()).min()
    }
}

fn of_elf<Elf: FileHeader<Endian = Endianness>>(bytes: &[u8]) -> Option<Layout> {
    let header = Elf::parse(bytes).ok()?;
    let endian = header.endian().ok()?;
    let headers = header.program_headers(endian, bytes).ok()?;
    let build_id = headers.iter().find_map(|header| {
        let mut notes = header.notes(endian, bytes).ok()??;
        std::iter::from_fn(|| notes.next().ok()?).find_map(|note| {
            (note.name() == b"GNU" && note.n_type(endian) == object::elf::NT_GNU_BUILD_ID).then(|| note.desc().to_vec())
        })
    });
    let segments = headers.iter().filter(|header| header.p_type(endian) == PT_LOAD).map(|header| Segment {
        address: header.p_vaddr(endian).into(),
        offset: header.p_offset(endian).into(),
        size: header.p_filesz(endian).into(),
        executable: header.p_flags(endian) & PF_X != 0,
        align: header.p_align(endian).into(),
    });
    Some(Layout { segments: segments.collect(), build_id })
}

#[cfg(test)]
mod tests {
    use super::*;

    #[test]
    fn this_program() {
        let bytes = std::fs::read("/proc/self/exe").expect("this program");
        let layout = Layout::of_file(&bytes);
        assert_eq!(layout.start(), Some(0));
        assert_eq!(layout.segments.iter().filter(|segment| segment.executable).count(), 1);
        assert_eq!(Layout::of_headers(&bytes[..4096]).segments, layout.segments);
        assert_eq!(Layout::of_file(b"\x7fELF"), Layout::default());
    }

    #[test]
    fn the_start_is_that_of_the_alignment() {
        let segment = Segment { address: 0x401234, offset: 0x1234, size: 16, executable: true, align: 0x200000 };
        let layout = Layout { segments: vec![segment], build_id: None };
        assert_eq!(layout.start(), Some(0x400000));
        let has: Vec<u64> = (0x401233..0x401246).filter(|&address| layout.has_code(address)).collect();
        assert_eq!((has.first(), has.last()), (Some(&0x401234), Some(&0x401243)));
        assert_eq!(Layout::default().start(), None);
    }
}
