//! Names of C++ as people read them, in the styles of two demanglers: that of LLVM's tools, which
//! libc++abi has, and that of GNU's tools, which libstdc++ has.

use std::ffi::{c_char, c_int, c_void, CStr};
use std::ptr::null_mut;

/// Whose tools are followed, where they differ.
#[derive(Debug, Clone, Copy, PartialEq, Eq)]
pub enum Tools {
    /// Their names are like `void f<A<int>>()` and `main::'lambda'()`.
    Llvm,
    /// Their names are like `void f<A<int> >()` and `main::{lambda()#1}`.
    Gnu,
}

// Of its archive the linker takes this and what it stands on.
#[link(name = "c++abi", kind = "static", modifiers = "-bundle")]
unsafe extern "C" {
    /// The function that the ABI of C++ has for this:
    /// <https://itanium-cxx-abi.github.io/cxx-abi/abi.html#demangler>.
    fn __cxa_demangle(name: *const c_char, text: *mut c_char, length: *mut usize, status: *mut c_int) -> *mut c_char;
}

// This archive is made by build.rs.
#[link(name = "a2l_gnu_names", kind = "static")]
unsafe extern "C" {
    /// Gives the parts of the text to a function, with a pointer of its own; 0 where all went well.
    fn __gcclibcxx_demangle_callback(
        name: *const c_char,
        part: unsafe extern "C" fn(*const c_char, usize, *mut c_void),
        whole: *mut c_void,
    ) -> c_int;
}

/// The name that stands behind a mangled one; none where it is of no scheme of C++.
///
/// A short name can stand for one that is longer than all memory, and a nested one takes as much
/// stack: whoever reads names of strangers bounds both first. Where memory runs out, the process
/// ends.
pub fn demangle_cxx(tools: Tools, name: &CStr) -> Option<Vec<u8>> {
    match tools {
        Tools::Llvm => of_llvm(name),
        Tools::Gnu => of_gnu(name),
    }
}

fn of_llvm(name: &CStr) -> Option<Vec<u8>> {
    let mut status = 0;
    // SAFETY: the name ends with a zero byte. Where no buffer is given, the function allocates one
    // for the text.
    let text = unsafe { __cxa_demangle(name.as_ptr(), null_mut(), null_mut(), &mut status) };
    if text.is_null() {
        return None;
    }
    // SAFETY: the text is one of C, and ours until it is freed.
    let copy = unsafe { CStr::from_ptr(text) }.to_bytes().to_vec();
    // SAFETY: it was allocated by malloc, and nobody else has it.
    unsafe { libc::free(text.cast()) };
    Some(copy)
}

fn of_gnu(name: &CStr) -> Option<Vec<u8>> {
    let mut text = Vec::<u8>::new();
    // SAFETY: the name ends with a zero byte, and nobody else uses the text during the call.
    let status = unsafe { __gcclibcxx_demangle_callback(name.as_ptr(), append, (&raw mut text).cast()) };
    (status == 0).then_some(text)
}

/// Appends a part to a text.
///
/// # Safety
///
/// The part has as many bytes, and the text is a `Vec<u8>` that nobody else uses.
unsafe extern "C" fn append(part: *const c_char, length: usize, text: *mut c_void) {
    // SAFETY: the caller promises it.
    let (part, text) = unsafe { (std::slice::from_raw_parts(part.cast::<u8>(), length), &mut *text.cast::<Vec<u8>>()) };
    text.extend_from_slice(part);
}

#[cfg(test)]
mod tests {
    use super::*;

    #[test]
    fn names_in_both_styles() {
        for (name, llvm, gnu) in [
            (c"_ZN3lib3sumIiEET_PKS1_i", "int lib::sum<int>(int const*, int)", "int lib::sum<int>(int const*, int)"),
            (c"_ZN1AIiJEE1fEv", "A<int>::f()", "A<int>::f()"),
            (c"_ZThn24_N1A1fEv", "non-virtual thunk to A::f()", "non-virtual thunk to A::f()"),
            (c"_ZN1A1fI1BIiEEEvv", "void A::f<B<int>>()", "void A::f<B<int> >()"),
            (c"_ZZ4mainENKUlvE_clEv", "main::'lambda'()::operator()() const", "main::{lambda()#1}::operator()() const"),
            (c"_ZL4fillv.isra.0", "fill() (.isra.0)", "fill() [clone .isra.0]"),
        ] {
            let found = |tools| demangle_cxx(tools, name).map(|text| String::from_utf8(text).expect("UTF-8"));
            assert_eq!(found(Tools::Llvm).as_deref(), Some(llvm), "{name:?}");
            assert_eq!(found(Tools::Gnu).as_deref(), Some(gnu), "{name:?}");
        }
    }

    #[test]
    fn what_is_no_name_of_cxx() {
        for name in [c"main", c"_ZN3foo", c"_Z", c""] {
            assert_eq!((demangle_cxx(Tools::Llvm, name), demangle_cxx(Tools::Gnu, name)), (None, None), "{name:?}");
        }
    }
}
