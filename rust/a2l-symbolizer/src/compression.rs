//! Sections as they stand in a file: whole, or compressed by zlib or zstd.

use a2l::File;
use flate2::{Decompress, FlushDecompress, Status};
use object::elf::{CompressionHeader32, CompressionHeader64, ELFCOMPRESS_ZLIB, SHF_COMPRESSED};
use object::pod::{from_bytes, Pod};
use object::read::elf::CompressionHeader;
use object::{CompressionFormat, Endianness, Object, ObjectSection, Section, SectionFlags};

use crate::sections::Error;

/// zstd, which `object` has no name for.
const ELFCOMPRESS_ZSTD: u32 = 2;

/// Compressed sections may claim so many bytes, and beyond these so many times their own, so that a
/// small file can't ask for much memory.
const FREE: u64 = 16 << 20;
const MOST: u64 = 100;

/// The bytes of a section.
#[derive(Debug, Clone, Copy)]
pub struct Packed<'data> {
    form: Form,
    bytes: &'data [u8],
    /// How many bytes the section has when it is unpacked, as it claims.
    pub size: u64,
}

#[derive(Debug, Clone, Copy, PartialEq, Eq)]
enum Form {
    Whole,
    Zlib,
    Zstd,
}

impl<'data> Packed<'data> {
    /// The bytes of a section of a file.
    pub fn of(object: &object::File<'data>, section: &Section<'data, '_>) -> Result<Packed<'data>, Error> {
        let SectionFlags::Elf { sh_flags } = section.flags() else {
            return Ok(Packed::whole(section.data()?));
        };
        if sh_flags & u64::from(SHF_COMPRESSED) != 0 {
            let endian = if object.is_little_endian() { Endianness::Little } else { Endianness::Big };
            return match object.is_64() {
                true => Packed::behind::<CompressionHeader64<Endianness>>(section.data()?, endian),
                false => Packed::behind::<CompressionHeader32<Endianness>>(section.data()?, endian),
            };
        }
        // GNU's older form has no flag but a name that begins with .zdebug.
        let data = section.compressed_data()?;
        match data.format {
            CompressionFormat::Zlib => Ok(Packed { form: Form::Zlib, bytes: data.data, size: data.uncompressed_size }),
            _ => Ok(Packed::whole(data.data)),
        }
    }

    /// Bytes that aren't compressed.
    pub fn whole(bytes: &'data [u8]) -> Packed<'data> {
        Packed { form: Form::Whole, bytes, size: bytes.len() as u64 }
    }

    /// What is behind the header of a compressed section.
    fn behind<Header>(bytes: &'data [u8], endian: Endianness) -> Result<Packed<'data>, Error>
    where
        Header: CompressionHeader<Endian = Endianness> + Pod,
    {
        let (header, bytes) = from_bytes::<Header>(bytes).map_err(|()| Error::Damaged)?;
        let form = match header.ch_type(endian) {
            ELFCOMPRESS_ZLIB => Form::Zlib,
            ELFCOMPRESS_ZSTD => Form::Zstd,
            _ => return Err(Error::Damaged),
        };
        Ok(Packed { form, bytes, size: header.ch_size(endian).into() })
    }

    pub fn is_whole(&self) -> bool {
        self.form == Form::Whole
    }

    /// Appends the bytes of the section as the program that made it has written them. After an error
    /// some of them may be there.
    pub fn append_to(&self, out: &mut Vec<u8>) -> Result<(), Error> {
        let (begin, size) = (out.len(), usize::try_from(self.size).map_err(|_| Error::TooLong)?);
        let end = begin.checked_add(size).ok_or(Error::TooLong)?;
        out.try_reserve_exact(size).map_err(|_| Error::TooMany)?;
        match self.form {
            Form::Whole => out.extend_from_slice(self.bytes),
            Form::Zlib => {
                let ended = Decompress::new(true).decompress_vec(self.bytes, out, FlushDecompress::Finish);
                if !matches!(ended, Ok(Status::StreamEnd)) {
                    return Err(Error::Damaged);
                }
            }
            Form::Zstd => {
                out.resize(end, 0);
                let written = zstd::bulk::decompress_to_buffer(self.bytes, &mut out[begin..]);
                out.truncate(begin + written.map_err(|_| Error::Damaged)?);
            }
        }
        if out.len() == end {
            Ok(())
        } else {
            Err(Error::Damaged)
        }
    }
}

/// How many bytes sections of a file have when they are unpacked, where they claim no more than they
/// may, and have no more than the file has.
pub fn size_of<'data>(file: &File, sections: impl IntoIterator<Item = Packed<'data>>) -> Result<u64, Error> {
    let (mut size, mut bytes) = (0_u64, 0_u64);
    for section in sections {
        size = size.checked_add(section.size).ok_or(Error::TooLong)?;
        bytes = bytes.saturating_add(section.bytes.len() as u64);
    }
    if size.saturating_sub(FREE) / MOST > bytes {
        Err(Error::TooLong)
    } else if bytes > file.len() as u64 {
        Err(Error::TooMany)
    } else {
        Ok(size)
    }
}

#[cfg(test)]
mod tests {
    use super::*;

    fn zlib(bytes: &[u8]) -> Vec<u8> {
        let mut packed = Vec::with_capacity(bytes.len() + 100);
        let mut stream = flate2::Compress::new(flate2::Compression::fast(), true);
        stream.compress_vec(bytes, &mut packed, flate2::FlushCompress::Finish).expect("zlib");
        packed
    }

    /// What comes before a section that claims so many bytes.
    fn header(kind: u32, size: u64) -> Vec<u8> {
        [&kind.to_le_bytes()[..], &[0; 4], &size.to_le_bytes(), &1_u64.to_le_bytes()].concat()
    }

    fn unpacked(kind: u32, size: u64, packed: &[u8]) -> Result<Vec<u8>, Error> {
        let bytes = [&header(kind, size), packed].concat();
        let packed = Packed::behind::<CompressionHeader64<Endianness>>(&bytes, Endianness::Little)?;
        let mut out = vec![1, 2];
        packed.append_to(&mut out)?;
        Ok(out.split_off(2))
    }

    #[test]
    fn claims_are_what_comes_out() {
        let text = [7; 50];
        let packed = zstd::bulk::compress(&text, 3).expect("zstd");
        for (kind, packed) in [(ELFCOMPRESS_ZLIB, zlib(&text)), (ELFCOMPRESS_ZSTD, packed)] {
            for size in 49..52 {
                let found = unpacked(kind, size, &packed);
                assert_eq!(found.ok().as_deref(), (size == 50).then_some(&text[..]), "{kind} {size}");
            }
            assert!(unpacked(kind, 50, &packed[..packed.len() - 1]).is_err());
        }
        assert!(unpacked(3, 50, &text).is_err() && unpacked(ELFCOMPRESS_ZSTD, 50, &text).is_err());
    }

    #[test]
    fn claims_are_bounded() {
        let claiming = |size| Packed { form: Form::Zstd, bytes: &[0; 1000], size };
        let most = FREE + 1000 * MOST;
        let file = File::from(vec![0; 2000]);
        assert_eq!(size_of(&file, [claiming(most)]).ok(), Some(most));
        assert!(matches!(size_of(&file, [claiming(1000); 3]), Err(Error::TooMany)));
        for sections in [&[claiming(most + MOST)][..], &[claiming(most); 2], &[claiming(u64::MAX); 2]] {
            assert!(matches!(size_of(&file, sections.iter().copied()), Err(Error::TooLong)));
        }
    }
}
