//! A file of the debug information of another one, decompressed and relocated, as the library reads
//! it.

use a2l::File;
use object::elf::{FileHeader64, SectionHeader64, ET_DYN, ET_REL, SHT_PROGBITS, SHT_STRTAB};
use object::endian::{LittleEndian, U16, U32, U64};
use object::pod::bytes_of;
use object::read::elf::FileHeader;
use object::{Object, ObjectSection, Section};

use crate::compression::{size_of, Packed};
use crate::placement::Placement;
use crate::relocated::Relocations;
use crate::sections::{name_of_debug_section, Error};

/// The sections that the library reads, without what is before each name.
const READ: [&[u8]; 8] = [b"info", b"abbrev", b"line", b"line_str", b"str", b"str_offsets", b"addr", b"rnglists"];

/// An image of the sections of a file that the library reads, of at most so many bytes. Sections of
/// a relocatable file that have one name become one, as in a program.
pub fn image(file: &File, placement: &Placement, most: u64) -> Result<File, Error> {
    let (header, object) = (FileHeader64::<LittleEndian>::parse(&**file)?, object::File::parse(&**file)?);
    header.endian()?;
    let found = sections_read(&object, placement)?;
    let size = size_of(file, found.iter().map(|&(.., packed)| packed))?;
    let size = Some(size).filter(|&size| size <= most).and_then(|size| usize::try_from(size).ok());
    let mut image = Image::new(size.ok_or(Error::TooMany)?)?;
    let mut relocations = Relocations::new(file, &object, placement);
    for (name, section, packed) in &found {
        let begin = image.bytes.len();
        image.add(name, packed)?;
        if placement.is_relocatable() {
            relocations.apply(section, &mut image.bytes[begin..])?;
        }
    }
    Ok(image.finish(header))
}

/// A section that the library reads: what follows `.debug_` in its name, and its bytes.
type Found<'data, 'file> = (&'static [u8], Section<'data, 'file>, Packed<'data>);

/// The sections that the library reads, those of one name together.
fn sections_read<'data, 'file>(
    object: &'file object::File<'data>,
    placement: &Placement,
) -> Result<Vec<Found<'data, 'file>>, Error> {
    let mut found = Vec::new();
    for section in object.sections() {
        let name = name_of_debug_section(section.name_bytes()?);
        let read = name.and_then(|name| READ.into_iter().find(|&read| read == name));
        if let Some(name) = read {
            let packed = Packed::of(object, &section)?;
            found.push((name, section, packed));
        }
    }
    found.sort_by_key(|&(name, ..)| name);
    if !placement.is_relocatable() {
        found.dedup_by_key(|&mut (name, ..)| name);
    }
    Ok(found)
}

/// A file that is put together: a header, bytes of sections, their names, and the table of
/// sections.
struct Image {
    /// The name of the last section, after `.debug_`.
    last: &'static [u8],
    bytes: Vec<u8>,
    names: Vec<u8>,
    sections: Vec<SectionHeader64<LittleEndian>>,
}

impl Image {
    /// So much there is left for all but the bytes of sections.
    const FRAME: usize = 4096;

    /// An image of sections of so many bytes, which none of them moves.
    fn new(size: usize) -> Result<Image, Error> {
        let mut bytes = Vec::new();
        bytes.try_reserve_exact(size.saturating_add(Image::FRAME)).map_err(|_| Error::TooMany)?;
        bytes.resize(std::mem::size_of::<FileHeader64<LittleEndian>>(), 0);
        Ok(Image { last: b"", bytes, names: vec![0], sections: vec![header(0, 0, 0, 0)] })
    }

    /// Adds bytes to the last section where that has this name, else begins the next one.
    fn add(&mut self, name: &'static [u8], packed: &Packed<'_>) -> Result<(), Error> {
        let begin = self.bytes.len();
        packed.append_to(&mut self.bytes)?;
        let size = self.bytes.len() - begin;
        match self.sections.last_mut() {
            Some(section) if self.last == name => {
                let all = section.sh_size.get(LittleEndian) + size as u64;
                section.sh_size = U64::new(LittleEndian, all);
            }
            _ => {
                self.sections.push(header(self.names.len(), SHT_PROGBITS, begin, size));
                self.names.extend_from_slice(&[b".debug_", name, b"\0"].concat());
                self.last = name;
            }
        }
        Ok(())
    }

    /// The file, with a header like that of the other one. What was relocatable is linked now.
    fn finish(mut self, like: &FileHeader64<LittleEndian>) -> File {
        let name = self.names.len();
        self.names.extend_from_slice(b".shstrtab\0");
        self.sections.push(header(name, SHT_STRTAB, self.bytes.len(), self.names.len()));
        self.bytes.extend_from_slice(&self.names);
        self.bytes.resize(self.bytes.len().next_multiple_of(8), 0);
        let mut first = *like;
        if first.e_type.get(LittleEndian) == ET_REL {
            first.e_type = U16::new(LittleEndian, ET_DYN);
        }
        first.e_phoff = U64::new(LittleEndian, 0);
        first.e_phnum = U16::new(LittleEndian, 0);
        first.e_shoff = U64::new(LittleEndian, self.bytes.len() as u64);
        first.e_shnum = U16::new(LittleEndian, self.sections.len() as u16);
        first.e_shstrndx = U16::new(LittleEndian, self.sections.len() as u16 - 1);
        for section in &self.sections {
            self.bytes.extend_from_slice(bytes_of(section));
        }
        let first = bytes_of(&first);
        self.bytes[..first.len()].copy_from_slice(first);
        File::from(self.bytes)
    }
}

fn header(name: usize, kind: u32, offset: usize, size: usize) -> SectionHeader64<LittleEndian> {
    let (word, long) = (|number| U32::new(LittleEndian, number), |number| U64::new(LittleEndian, number));
    SectionHeader64 {
        sh_name: word(name as u32),
        sh_type: word(kind),
        sh_flags: long(0),
        sh_addr: long(0),
        sh_offset: long(offset as u64),
        sh_size: long(size as u64),
        sh_link: word(0),
        sh_info: word(0),
        sh_addralign: long(1),
        sh_entsize: long(0),
    }
}

#[cfg(test)]
mod tests {
    use super::*;
    use std::sync::Arc;

    use object::elf::{CompressionHeader64, ELFCOMPRESS_ZLIB, SHF_COMPRESSED};

    fn sample() -> File {
        let path = concat!(env!("CARGO_MANIFEST_DIR"), "/../../samples/inlined.elf");
        File::from(std::fs::read(path).expect("the sample"))
    }

    #[test]
    fn an_image_has_the_same_answers() {
        let image = image(&sample(), &Placement::default(), 1 << 20).expect("an image");
        let mut program = a2l::Program::open(Arc::new(image), 1).expect("a file that is accepted");
        let frames = program.find_frames(0x401004).expect("no fault").expect("frames").frames;
        let names: Vec<_> = frames.iter().map(|frame| frame.function_name()).collect();
        assert_eq!(names, [Some("leaf"), Some("mid"), Some("main")]);
    }

    #[test]
    fn an_image_is_bounded() {
        assert!(matches!(image(&sample(), &Placement::default(), 100), Err(Error::TooMany)));
    }

    /// A file whose one section claims so many bytes, of 16 that are no zlib.
    fn claiming(size: u64) -> File {
        let claim = CompressionHeader64 {
            ch_type: U32::new(LittleEndian, ELFCOMPRESS_ZLIB),
            ch_reserved: U32::new(LittleEndian, 0),
            ch_size: U64::new(LittleEndian, size),
            ch_addralign: U64::new(LittleEndian, 1),
        };
        let bytes = [bytes_of(&claim), &[0; 16][..]].concat();
        let mut image = Image::new(bytes.len()).expect("memory");
        image.add(b"info", &Packed::whole(&bytes)).expect("bytes that aren't compressed");
        image.sections[1].sh_flags = U64::new(LittleEndian, SHF_COMPRESSED.into());
        let sample = sample();
        image.finish(FileHeader64::<LittleEndian>::parse(&*sample).expect("the sample"))
    }

    #[test]
    fn claims_are_bounded() {
        assert!(matches!(image(&claiming(1 << 40), &Placement::default(), u64::MAX), Err(Error::TooLong)));
        assert!(matches!(image(&claiming(1 << 10), &Placement::default(), u64::MAX), Err(Error::Damaged)));
    }
}
