//! Links liba2l: that of the folder `A2L_LIB_DIR`; else the one that `make library` has built in
//! this repository, or that a release has beside this crate; else the installed one of this
//! version, by pkg-config. With names of C++, links the demanglers of libc++abi and libstdc++ too.

use std::env;
use std::fs;
use std::io;
use std::path::PathBuf;
use std::process::Command;

const NAME: &str = "liba2l.a";
const NAMES_OF_LLVM: &str = "libc++abi.a";

fn main() {
    println!("cargo:rerun-if-env-changed=A2L_LIB_DIR");
    println!("cargo:rerun-if-env-changed=PKG_CONFIG_PATH");
    let folder = env::var("A2L_LIB_DIR").map_or_else(|_| found(), PathBuf::from);
    println!("cargo:rustc-link-search=native={}", folder.display());
    println!("cargo:rustc-link-lib=static=a2l");
    println!("cargo:rerun-if-changed={}", folder.join(NAME).display());
    if env::var_os("CARGO_FEATURE_CXX_NAMES").is_some() {
        println!("cargo:rerun-if-env-changed=A2L_CXXABI_DIR");
        link_names_of_llvm();
        if let Err(why) = make_names_of_gnu() {
            println!("cargo:warning=no demangler of libstdc++, which g++ brings: {why}");
        }
    }
}

/// Has the linker look for libc++abi in the folder of the variable `A2L_CXXABI_DIR`, or else in that
/// of the newest LLVM, as Debian's packages have them.
fn link_names_of_llvm() {
    let folders = fs::read_dir("/usr/lib").into_iter().flatten().flatten().map(|entry| entry.path());
    let versions = folders.filter_map(|folder| {
        let version: u32 = folder.file_name()?.to_str()?.strip_prefix("llvm-")?.parse().ok()?;
        Some((version, folder.join("lib"))).filter(|(_, folder)| folder.join(NAMES_OF_LLVM).exists())
    });
    let newest = || versions.max().map(|(_, folder)| folder);
    if let Some(folder) = env::var_os("A2L_CXXABI_DIR").map(PathBuf::from).or_else(newest) {
        println!("cargo:rustc-link-search=native={}", folder.display());
        println!("cargo:rerun-if-changed={}", folder.join(NAMES_OF_LLVM).display());
    }
}

/// Makes an archive of the one object of libstdc++ that demangles. Its `__cxa_demangle` is hidden,
/// since libc++abi has the same name.
fn make_names_of_gnu() -> io::Result<()> {
    let folder = PathBuf::from(env::var("OUT_DIR").expect("cargo sets it"));
    let said = Command::new("cc").arg("-print-file-name=libstdc++.a").output()?;
    let archive = PathBuf::from(String::from_utf8_lossy(&said.stdout).trim_end());
    println!("cargo:rerun-if-changed={}", archive.display());
    let archive = archive.to_string_lossy();
    for words in [
        &["ar", "x", &archive, "cp-demangle.o"][..],
        &["objcopy", "--keep-global-symbol=__gcclibcxx_demangle_callback", "cp-demangle.o"],
        &["ar", "rcsD", "liba2l_gnu_names.a", "cp-demangle.o"],
    ] {
        let status = Command::new(words[0]).args(&words[1..]).current_dir(&folder).status()?;
        if !status.success() {
            return Err(io::Error::other(format!("{} {archive}: {status}", words[0])));
        }
    }
    println!("cargo:rustc-link-search=native={}", folder.display());
    Ok(())
}

/// The folder of the library, where no variable names it. Where it is in none, that of the
/// repository: to check the crate needs no library, and the linker names what it misses.
fn found() -> PathBuf {
    let here = PathBuf::from(env::var("CARGO_MANIFEST_DIR").expect("cargo sets it"));
    let near = ["../../out", "../../lib"].map(|folder| here.join(folder));
    let beside = near.iter().find(|folder| folder.join(NAME).exists());
    beside.cloned().or_else(installed).unwrap_or_else(|| near[0].clone())
}

/// The folder of the installed library.
fn installed() -> Option<PathBuf> {
    let wanted = format!("a2l = {}", env::var("CARGO_PKG_VERSION").expect("cargo sets it"));
    let told = Command::new("pkg-config").args(["--variable=libdir", &wanted]).output().ok()?;
    let folder = String::from_utf8(told.stdout).ok()?;
    told.status.success().then(|| PathBuf::from(folder.trim_end()))
}
