//! Files that are made here, and numbers that relocations change.

use super::*;

use object::elf::{
    EM_X86_64, ET_REL, R_X86_64_32, R_X86_64_64, R_X86_64_GOTOFF64, SHF_ALLOC, SHF_EXECINSTR, SHT_PROGBITS, SHT_RELA,
    SHT_STRTAB, SHT_SYMTAB,
};
use object::SectionIndex;

/// A section: its name, kind, flags, link and what it is about, and its bytes.
type Parts<'p> = (&'p str, u32, u32, u32, u32, Vec<u8>);

fn relocation(offset: u64, kind: u32, symbol: u32, addend: i64) -> Vec<u8> {
    let info = u64::from(symbol) << 32 | u64::from(kind);
    [offset, info, addend as u64].map(u64::to_le_bytes).concat()
}

/// A symbol at a place of a section.
fn symbol(section: u16, value: u64) -> Vec<u8> {
    let [low, high] = section.to_le_bytes();
    [&[0, 0, 0, 0, 0, 0, low, high][..], &value.to_le_bytes(), &[0; 8]].concat()
}

/// A relocatable file of x86-64. The last section is that of the names.
fn file(mut sections: Vec<Parts<'_>>) -> File {
    sections.insert(0, ("", 0, 0, 0, 0, Vec::new()));
    let names: Vec<u8> = sections.iter().flat_map(|(name, ..)| [name.as_bytes(), b"\0"].concat()).collect();
    sections.last_mut().expect("a section").5 = names;
    let (mut bytes, mut headers, mut name) = (vec![0; 64], Vec::new(), 0);
    for (text, kind, flags, link, info, data) in &sections {
        let (offset, size) = (bytes.len() as u32, data.len() as u32);
        let entry = if matches!(*kind, SHT_SYMTAB | SHT_RELA) { 24 } else { 0 };
        let words = [name, *kind, *flags, 0, 0, 0, offset, 0, size, 0, *link, *info, 1, 0, entry, 0];
        headers.extend(words.into_iter().flat_map(u32::to_le_bytes));
        bytes.extend_from_slice(data);
        name += text.len() as u32 + 1;
    }
    let (count, table) = (sections.len() as u16, bytes.len() as u16);
    bytes[..7].copy_from_slice(b"\x7fELF\x02\x01\x01");
    let halves =
        [(16, ET_REL), (18, EM_X86_64), (20, 1), (40, table), (52, 64), (58, 64), (60, count), (62, count - 1)];
    for (place, half) in halves {
        bytes[place..place + 2].copy_from_slice(&half.to_le_bytes());
    }
    bytes.extend(headers);
    File::from(bytes)
}

/// A file with some code and two sections of addresses, of which the second has relocations.
fn with_relocations(relocations: Vec<u8>) -> File {
    let code = SHF_ALLOC | SHF_EXECINSTR;
    file(vec![
        (".text", SHT_PROGBITS, code, 0, 0, vec![0; 16]),
        (".debug_addr", SHT_PROGBITS, 0, 0, 0, vec![0; 8]),
        (".debug_addr", SHT_PROGBITS, 0, 0, 0, vec![0; 12]),
        (".rela", SHT_RELA, 0, 6, 2, relocation(0, R_X86_64_64, 1, 2)),
        (".rela", SHT_RELA, 0, 6, 3, relocations),
        (".symtab", SHT_SYMTAB, 0, 7, 0, [symbol(0, 0), symbol(1, 4), symbol(3, 0)].concat()),
        (".strtab", SHT_STRTAB, 0, 0, 0, Vec::new()),
    ])
}

/// The addresses, and where the code was put.
fn addresses(file: &File) -> Result<(Vec<u8>, u64), Error> {
    let object = object::File::parse(&**file).expect("a file that is made here");
    let placement = Placement::of(&object);
    let begin = placement.in_section(b".text", 0).expect("it is loaded");
    Ok((relocated(file, &object, &placement, ".debug_addr")?.to_vec(), begin))
}

#[test]
fn sections_of_one_name_are_joined() {
    let relocations = [relocation(0, R_X86_64_64, 1, 3), relocation(8, R_X86_64_32, 2, 1)].concat();
    let (found, begin) = addresses(&with_relocations(relocations)).expect("known relocations");
    // the second section begins 8 bytes after the first
    assert_eq!(found, [&(begin + 6).to_le_bytes()[..], &(begin + 7).to_le_bytes(), &9_u32.to_le_bytes()].concat());
}

#[test]
fn relocations_that_are_refused() {
    let unknown = with_relocations(relocation(0, R_X86_64_GOTOFF64, 1, 0));
    assert!(matches!(addresses(&unknown), Err(Error::Relocation)));
    let file = with_relocations(relocation(0, R_X86_64_64, 1, 3));
    let object = object::File::parse(&*file).expect("a file that is made here");
    let section = object.sections().nth(2).expect("the second section of addresses");
    let placement = Placement::of(&object);
    let mut none_left = Relocations { object: &object, placement: &placement, left: 0 };
    assert!(matches!(none_left.apply(&section, &mut [0; 12]), Err(Error::TooMany)));
}

#[test]
fn relocations_outside_change_nothing() {
    let relocations = [relocation(9, R_X86_64_32, 1, 0), relocation(u64::MAX, R_X86_64_64, 1, 0)].concat();
    let (found, _) = addresses(&with_relocations(relocations)).expect("known relocations");
    assert_eq!(found[8..], [0; 12]);
}

fn changed(bytes: &[u8], change: Change, form: Form, value: u64, is_little: bool) -> Vec<u8> {
    let mut bytes = bytes.to_vec();
    apply(&mut bytes, change, form, value, is_little).expect("a number that is all there");
    bytes
}

#[test]
fn numbers_of_bytes() {
    assert_eq!(changed(&[9; 5], Change::Set, Form::Bytes(4), 0x0102_0304, true), [4, 3, 2, 1, 9]);
    assert_eq!(changed(&[9; 5], Change::Set, Form::Bytes(4), 0x0102_0304, false), [1, 2, 3, 4, 9]);
    assert_eq!(changed(&[0, 1], Change::Add, Form::Bytes(2), 0xff, false), [1, 0]);
    assert_eq!(changed(&[0, 1], Change::Subtract, Form::Bytes(2), 1, true), [0xff, 0]);
    assert_eq!(changed(&[2], Change::Subtract, Form::Bytes(1), 3, true), [0xff]);
}

#[test]
fn leb128_keeps_its_length() {
    assert_eq!(changed(&[0x80, 0x80, 0, 7], Change::Set, Form::Leb128, 300, true), [0xac, 0x82, 0, 7]);
    assert_eq!(changed(&[0xac, 0x82, 0], Change::Subtract, Form::Leb128, 299, true), [0x81, 0x80, 0]);
}

#[test]
fn numbers_that_are_cut_off_stay() {
    for (bytes, form) in [(&[1, 2, 3][..], Form::Bytes(4)), (&[0x80, 0x81], Form::Leb128), (&[0xff; 12], Form::Leb128)]
    {
        let mut left = bytes.to_vec();
        assert_eq!(apply(&mut left, Change::Add, form, 5, true), None);
        assert_eq!(left, bytes);
    }
}

#[test]
fn a_debug_file_has_the_places_of_its_program() {
    let code = SHF_ALLOC | SHF_EXECINSTR;
    let section = |name, size| (name, SHT_PROGBITS, code, 0, 0, vec![0; size]);
    let names = || (".strtab", SHT_STRTAB, 0, 0, 0, Vec::new());
    let program = file(vec![section(".text", 16), section(".init.text", 8), section(".init.text", 8), names()]);
    let debug = file(vec![section(".init.text", 8), section(".init.text", 8), section(".text", 32), names()]);
    let program = Placement::of(&object::File::parse(&*program).expect("a file that is made here"));
    let object = object::File::parse(&*debug).expect("a file that is made here");
    let debug = program.of_debug_file(&object).expect("both are relocatable");
    // .text has another size there, and so no place
    for (own, other) in [(2, 1), (3, 2)] {
        let own = program.of_symbol(Some(SectionIndex(own)), 4);
        assert_eq!(debug.of_symbol(Some(SectionIndex(other)), 4), own);
    }
    assert_eq!(debug.of_symbol(Some(SectionIndex(3)), 4), 4);
    assert!(Placement::default().of_debug_file(&object).is_none());
}
