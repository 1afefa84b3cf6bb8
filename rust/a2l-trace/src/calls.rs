//! Whether an address can be a return address, by the bytes of the program before it.

use object::{Architecture, Object, ObjectSection};

/// Whether an instruction before an address of the file can be a call. Where that isn't known, it
/// can be.
pub fn can_follow_call(bytes: &[u8], address: u64) -> bool {
    let Ok(file) = object::File::parse(bytes) else {
        return true;
    };
    if !matches!(file.architecture(), Architecture::X86_64 | Architecture::I386) {
        return true;
    }
    // The longest form is looked at, as far as the section goes.
    let before = file.sections().find_map(|section| {
        let offset = usize::try_from(address.checked_sub(section.address())?).ok()?;
        (address <= section.address().checked_add(section.size())?).then_some(())?;
        section.data().ok()?.get(offset.saturating_sub(LONGEST)..offset)
    });
    before.is_none_or(ends_in_call)
}

const LONGEST: usize = 7;

/// The last bytes can be a call of Intel's processors: E8 with four bytes, or FF with a ModR/M byte
/// whose middle bits are 2, its SIB byte and displacement.
fn ends_in_call(bytes: &[u8]) -> bool {
    let from_end = |count: usize| bytes.len().checked_sub(count).map(|at| &bytes[at..]);
    let is_direct = from_end(5).is_some_and(|call| call[0] == 0xe8);
    is_direct || (2..=LONGEST).any(|count| from_end(count).is_some_and(|call| is_indirect(call) == Some(count)))
}

/// How long an indirect call is that these bytes begin.
fn is_indirect(call: &[u8]) -> Option<usize> {
    let &[0xff, mode, ..] = call else {
        return None;
    };
    if mode >> 3 & 7 != 2 {
        return None;
    }
    let has_sib = mode >> 6 != 3 && mode & 7 == 4;
    let displacement = match (mode >> 6, mode & 7) {
        (0, 5) | (2, _) => 4,
        (0, 4) if call.get(2).is_some_and(|sib| sib & 7 == 5) => 4,
        (1, _) => 1,
        _ => 0,
    };
    Some(2 + usize::from(has_sib) + displacement)
}

#[cfg(test)]
mod tests {
    use super::*;

    #[test]
    fn calls() {
        for bytes in [
            &[0xe8, 1, 2, 3, 4][..],
            &[0x90, 0xff, 0xd0],             // call *%rax
            &[0x41, 0xff, 0xd4],             // call *%r12
            &[0xff, 0x15, 1, 2, 3, 4],       // call *0x4030201(%rip)
            &[0xff, 0x50, 0x18],             // call *0x18(%rax)
            &[0xff, 0x14, 0xc5, 1, 2, 3, 4], // call *0x4030201(,%rax,8)
            &[0xff, 0x94, 0xc3, 1, 2, 3, 4], // call *0x4030201(%rbx,%rax,8)
            &[0xff, 0x54, 0x24, 8],          // call *0x8(%rsp)
        ] {
            assert!(ends_in_call(bytes), "{bytes:x?}");
        }
        for bytes in [
            &[][..],
            &[0x90, 0x90, 0x90, 0x90, 0x90],
            &[0xc3],
            &[0xcc, 0xff, 0xe0],
            &[0x66, 0x2e, 0xf, 0x1f, 0x84, 0, 0],
        ] {
            assert!(!ends_in_call(bytes), "{bytes:x?}");
        }
    }
}
