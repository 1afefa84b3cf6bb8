//! Processes from files: a list of mappings, a process that runs, and a core file.

use std::fs::File;
use std::io;
use std::ops::Range;
use std::os::unix::fs::FileExt;
use std::path::{Path, PathBuf};

use a2l_symbolizer::Opener;
use object::elf::{FileHeader32, FileHeader64, ET_CORE, NT_FILE, PF_X, PT_LOAD};
use object::read::elf::{FileHeader, ProgramHeader};
use object::read::FileKind;
use object::Endianness;

use crate::forms::maps;
use crate::layout::Layout;
use crate::process::{Mapping, Process};

/// The headers of a file are in so many bytes of memory.
const HEADERS: usize = 4096;

/// The mappings of a file like `/proc/PID/maps`.
pub fn of_maps(path: &Path) -> io::Result<Process> {
    let mut process = Process::default();
    std::fs::read(path)?.split(|&byte| byte == b'\n').filter_map(maps::find).for_each(|mapping| process.add(mapping));
    Ok(process)
}

/// A process that runs: its mappings, and what its memory has of the headers of files.
pub fn of_pid(pid: u32) -> io::Result<Process> {
    let folder = PathBuf::from(format!("/proc/{pid}"));
    let mut process = of_maps(&folder.join("maps"))?;
    process.root = Some(folder.join("root"));
    let memory = File::open(folder.join("mem"))?;
    let mut page = vec![0; HEADERS];
    for (start, path) in process.first_pages() {
        if memory.read_exact_at(&mut page, start).is_ok() {
            process.add_headers(path, Layout::of_headers(&page));
        }
    }
    Ok(process)
}

/// The process of a core file. The text of an error says why there is none.
pub fn of_core(path: &Path) -> io::Result<Process> {
    let invalid = |why: &str| io::Error::new(io::ErrorKind::InvalidData, why.to_owned());
    let file = Opener::Map.open(path)?.file;
    let bytes: &[u8] = &file;
    let process = match FileKind::parse(bytes) {
        Ok(FileKind::Elf32) => of_elf::<FileHeader32<Endianness>>(bytes),
        Ok(FileKind::Elf64) => of_elf::<FileHeader64<Endianness>>(bytes),
        _ => return Err(invalid("not an ELF file")),
    };
    process.ok_or_else(|| invalid("no core file with a list of mapped files"))
}

fn of_elf<Elf: FileHeader<Endian = Endianness>>(bytes: &[u8]) -> Option<Process> {
    let header = Elf::parse(bytes).ok()?;
    let endian = header.endian().ok().filter(|&endian| header.e_type(endian) == ET_CORE)?;
    let headers = header.program_headers(endian, bytes).ok()?;
    let list = headers.iter().find_map(|header| {
        let mut notes = header.notes(endian, bytes).ok()??;
        std::iter::from_fn(|| notes.next().ok()?).find(|note| note.n_type(endian) == NT_FILE)
    })?;
    let memory: Vec<Part<'_>> = headers.iter().filter_map(|header| Part::of(header, endian, bytes)).collect();
    let part = |address: u64| memory.iter().find(|part| part.range.contains(&address));
    let mut process = Process::default();
    for mapping in mappings(list.desc(), header.is_type_64(), endian)? {
        let executable = part(mapping.start).map(|part| part.executable);
        process.add(Mapping { executable, ..mapping });
    }
    for (start, path) in process.first_pages() {
        if let Some(part) = part(start) {
            let begin = usize::try_from(start - part.range.start).unwrap_or(usize::MAX);
            process.add_headers(path, Layout::of_headers(part.bytes.get(begin..).unwrap_or_default()));
        }
    }
    Some(process)
}

/// A part of memory, of which a core file may have fewer bytes.
struct Part<'data> {
    range: Range<u64>,
    bytes: &'data [u8],
    executable: bool,
}

impl<'data> Part<'data> {
    fn of<Elf>(header: &Elf, endian: Endianness, bytes: &'data [u8]) -> Option<Part<'data>>
    where
        Elf: ProgramHeader<Endian = Endianness>,
    {
        let start: u64 = header.p_vaddr(endian).into();
        let size: u64 = header.p_memsz(endian).into();
        let is_loaded = header.p_type(endian) == PT_LOAD;
        let bytes = header.data(endian, bytes).unwrap_or_default();
        let executable = header.p_flags(endian) & PF_X != 0;
        is_loaded.then_some(Part { range: start..start.saturating_add(size), bytes, executable })
    }
}

/// The mappings of a note NT_FILE: how many there are, the size of a page, then the first address,
/// the address after the last one, and the page of the file of each, then their paths.
fn mappings(note: &[u8], is_64: bool, endian: Endianness) -> Option<Vec<Mapping>> {
    let width = if is_64 { 8 } else { 4 };
    let number = |index: usize| {
        let bytes = note.get(index.checked_mul(width)?..)?.get(..width)?;
        let mut word = [0; 8];
        bytes.iter().enumerate().for_each(|(at, &byte)| match endian {
            Endianness::Little => word[at] = byte,
            Endianness::Big => word[width - 1 - at] = byte,
        });
        Some(u64::from_le_bytes(word))
    };
    let (count, page) = (usize::try_from(number(0)?).ok()?, number(1)?);
    let names = note.get(count.checked_mul(3)?.checked_add(2)?.checked_mul(width)?..)?;
    let mut names = names.split(|&byte| byte == 0);
    let mapping = |index: usize| {
        let (start, end, offset) = (number(2 + 3 * index)?, number(3 + 3 * index)?, number(4 + 3 * index)?);
        let path = names.next()?.to_vec();
        Some(Mapping { start, end, offset: offset.checked_mul(page)?, executable: None, path })
    };
    (0..count).map(mapping).collect()
}

#[cfg(test)]
mod tests {
    use super::*;

    #[test]
    fn notes() {
        let words = [2_u64, 4096, 0x1000, 0x2000, 0, 0x2000, 0x4000, 1];
        let mut note: Vec<u8> = words.iter().flat_map(|word| word.to_le_bytes()).collect();
        note.extend_from_slice(b"/a\0/b\0");
        let found = mappings(&note, true, Endianness::Little).expect("mappings");
        assert_eq!((found[1].start, found[1].offset, &*found[1].path), (0x2000, 0x1000, &b"/b"[..]));
        assert!(mappings(&note[..60], true, Endianness::Little).is_none());
        let huge: Vec<u8> = [u64::MAX, 4096].iter().flat_map(|word| word.to_le_bytes()).collect();
        assert!(mappings(&huge, true, Endianness::Little).is_none());
    }
}
