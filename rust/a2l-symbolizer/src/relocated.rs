//! Relocatable files: numbers of debug information that wait for a linker.

use a2l::{File, Part};
use object::elf::{
    R_386_TLS_LDO_32, R_390_TLS_LDO32, R_390_TLS_LDO64, R_AARCH64_TLS_DTPREL, R_ARM_TLS_LDO32, R_LARCH_TLS_DTPREL32,
    R_LARCH_TLS_DTPREL64, R_MIPS_TLS_DTPREL32, R_MIPS_TLS_DTPREL64, R_PPC64_DTPREL64, R_PPC_DTPREL32, R_RISCV_ADD16,
    R_RISCV_ADD32, R_RISCV_ADD64, R_RISCV_ADD8, R_RISCV_SET16, R_RISCV_SET32, R_RISCV_SET8, R_RISCV_SUB16,
    R_RISCV_SUB32, R_RISCV_SUB64, R_RISCV_SUB8, R_RISCV_TLS_DTPREL32, R_RISCV_TLS_DTPREL64, R_X86_64_DTPOFF32,
    R_X86_64_DTPOFF64,
};
use object::{
    Architecture, Object, ObjectSection, ObjectSymbol, Relocation, RelocationKind, RelocationTarget, Section,
};

use crate::compression::{size_of, Packed};
use crate::placement::Placement;
use crate::sections::{name_of_debug_section, Error};

/// What a relocation does with the number in its place.
#[derive(Debug, Clone, Copy, PartialEq, Eq)]
enum Change {
    Set,
    Add,
    Subtract,
}

/// How the number is written.
#[derive(Debug, Clone, Copy, PartialEq, Eq)]
enum Form {
    Bytes(usize),
    Leb128,
}

/// Relocations that say where a variable of a thread is, which isn't asked: the number stays.
const OF_THREADS: [(Architecture, &[u32]); 13] = [
    (Architecture::Aarch64, &[R_AARCH64_TLS_DTPREL]),
    (Architecture::Arm, &[R_ARM_TLS_LDO32]),
    (Architecture::I386, &[R_386_TLS_LDO_32]),
    (Architecture::LoongArch64, &[R_LARCH_TLS_DTPREL32, R_LARCH_TLS_DTPREL64]),
    (Architecture::Mips, &[R_MIPS_TLS_DTPREL32]),
    (Architecture::Mips64, &[R_MIPS_TLS_DTPREL32, R_MIPS_TLS_DTPREL64]),
    (Architecture::PowerPc, &[R_PPC_DTPREL32]),
    (Architecture::PowerPc64, &[R_PPC64_DTPREL64]),
    (Architecture::Riscv32, &[R_RISCV_TLS_DTPREL32]),
    (Architecture::Riscv64, &[R_RISCV_TLS_DTPREL32, R_RISCV_TLS_DTPREL64]),
    (Architecture::S390x, &[R_390_TLS_LDO32, R_390_TLS_LDO64]),
    (Architecture::X86_64, &[R_X86_64_DTPOFF32, R_X86_64_DTPOFF64]),
    (Architecture::X86_64_X32, &[R_X86_64_DTPOFF32]),
];

/// Those of RISC-V that `object` has no names for.
const R_RISCV_SET_ULEB128: u32 = 60;
const R_RISCV_SUB_ULEB128: u32 = 61;

/// The relocations of a file.
pub struct Relocations<'f, 'data> {
    object: &'f object::File<'data>,
    placement: &'f Placement,
    /// So many of them may still come: sections of relocations may have their bytes in common, and a
    /// file isn't read a thousand times.
    left: usize,
}

/// A relocation takes at least so many bytes.
const SHORTEST: usize = 8;

/// The sections of a relocatable file that have a name, one after the other, as a linker would make
/// one of them; empty where the file has none.
pub fn relocated(file: &File, object: &object::File<'_>, placement: &Placement, name: &str) -> Result<Part, Error> {
    let mut found = Vec::new();
    let wanted = name_of_debug_section(name.as_bytes());
    for section in object.sections() {
        if wanted.is_some() && name_of_debug_section(section.name_bytes()?) == wanted {
            let packed = Packed::of(object, &section)?;
            found.push((section, packed));
        }
    }
    let size = size_of(file, found.iter().map(|&(_, packed)| packed))?;
    let (mut bytes, mut relocations) = (Vec::new(), Relocations::new(file, object, placement));
    bytes.try_reserve_exact(size as usize).map_err(|_| Error::TooMany)?;
    for (section, packed) in &found {
        let begin = bytes.len();
        packed.append_to(&mut bytes)?;
        relocations.apply(section, &mut bytes[begin..])?;
    }
    Ok(Part::whole(File::from(bytes)))
}

impl<'f, 'data> Relocations<'f, 'data> {
    /// Those of a relocatable file.
    pub fn new(file: &File, object: &'f object::File<'data>, placement: &'f Placement) -> Relocations<'f, 'data> {
        Relocations { object, placement, left: file.len() / SHORTEST }
    }

    /// Changes the bytes of a section as its relocations say. One outside of the section changes
    /// nothing.
    pub fn apply(&mut self, section: &Section<'_, '_>, bytes: &mut [u8]) -> Result<(), Error> {
        let (architecture, is_little) = (self.object.architecture(), self.object.is_little_endian());
        for (offset, relocation) in section.relocations() {
            self.left = self.left.checked_sub(1).ok_or(Error::TooMany)?;
            let Some((change, form)) = meaning(architecture, &relocation)? else {
                continue;
            };
            let value = self.target(&relocation).wrapping_add(relocation.addend() as u64);
            let place = usize::try_from(offset).ok().and_then(|offset| bytes.get_mut(offset..));
            place.and_then(|place| apply(place, change, form, value, is_little));
        }
        Ok(())
    }

    /// The place of the symbol of a relocation.
    fn target(&self, relocation: &Relocation) -> u64 {
        match relocation.target() {
            RelocationTarget::Symbol(index) => self
                .object
                .symbol_by_index(index)
                .map_or(0, |symbol| self.placement.of_symbol(symbol.section_index(), symbol.address())),
            RelocationTarget::Section(index) => self.placement.of_symbol(Some(index), 0),
            _ => 0,
        }
    }
}

/// What a relocation does, where it does something. One that isn't known would leave a wrong number.
fn meaning(architecture: Architecture, relocation: &Relocation) -> Result<Option<(Change, Form)>, Error> {
    match (architecture, relocation.kind()) {
        (_, RelocationKind::Absolute) => {
            let change = if relocation.has_implicit_addend() { Change::Add } else { Change::Set };
            Ok(Some((change, Form::Bytes(usize::from(relocation.size() / 8).min(8)))))
        }
        (_, RelocationKind::Elf(0)) => Ok(None),
        (_, RelocationKind::Elf(kind)) if is_of_threads(architecture, kind) => Ok(None),
        (Architecture::Riscv32 | Architecture::Riscv64, RelocationKind::Elf(kind)) => {
            of_riscv(kind).map(Some).ok_or(Error::Relocation)
        }
        _ => Err(Error::Relocation),
    }
}

fn is_of_threads(architecture: Architecture, kind: u32) -> bool {
    OF_THREADS.iter().any(|(other, kinds)| *other == architecture && kinds.contains(&kind))
}

/// RISC-V writes a distance as a sum and a difference, since a linker makes code shorter.
fn of_riscv(kind: u32) -> Option<(Change, Form)> {
    Some(match kind {
        R_RISCV_SET8 => (Change::Set, Form::Bytes(1)),
        R_RISCV_SET16 => (Change::Set, Form::Bytes(2)),
        R_RISCV_SET32 => (Change::Set, Form::Bytes(4)),
        R_RISCV_ADD8 => (Change::Add, Form::Bytes(1)),
        R_RISCV_ADD16 => (Change::Add, Form::Bytes(2)),
        R_RISCV_ADD32 => (Change::Add, Form::Bytes(4)),
        R_RISCV_ADD64 => (Change::Add, Form::Bytes(8)),
        R_RISCV_SUB8 => (Change::Subtract, Form::Bytes(1)),
        R_RISCV_SUB16 => (Change::Subtract, Form::Bytes(2)),
        R_RISCV_SUB32 => (Change::Subtract, Form::Bytes(4)),
        R_RISCV_SUB64 => (Change::Subtract, Form::Bytes(8)),
        R_RISCV_SET_ULEB128 => (Change::Set, Form::Leb128),
        R_RISCV_SUB_ULEB128 => (Change::Subtract, Form::Leb128),
        _ => return None,
    })
}

/// Changes the number with which some bytes begin; nothing where they end before it does.
fn apply(bytes: &mut [u8], change: Change, form: Form, value: u64, is_little: bool) -> Option<()> {
    let changed = |old: u64| match change {
        Change::Set => value,
        Change::Add => old.wrapping_add(value),
        Change::Subtract => old.wrapping_sub(value),
    };
    let size = match form {
        Form::Bytes(size) => size,
        Form::Leb128 => return apply_leb128(bytes, changed),
    };
    let place = bytes.get_mut(..size)?;
    let mut number = [0; 8];
    number[..size].copy_from_slice(place);
    if !is_little {
        number[..size].reverse();
    }
    place.copy_from_slice(&changed(u64::from_le_bytes(number)).to_le_bytes()[..size]);
    if !is_little {
        place.reverse();
    }
    Some(())
}

/// The same in LEB128, which keeps its length.
fn apply_leb128(bytes: &mut [u8], changed: impl FnOnce(u64) -> u64) -> Option<()> {
    let last = bytes.iter().take(10).position(|byte| byte & 0x80 == 0)?;
    let place = &mut bytes[..=last];
    let old = place.iter().rev().fold(0, |number: u64, byte| number << 7 | u64::from(byte & 0x7f));
    let mut number = changed(old);
    for byte in place {
        *byte = *byte & 0x80 | (number & 0x7f) as u8;
        number >>= 7;
    }
    Some(())
}

#[cfg(test)]
mod tests;
