//! Links the archive of `crates/resp_c`, and the allocation functions that it wants.
//!
//! A package has both in its folder `native`; in the repository they stand elsewhere. `RESP_C_LIB`
//! names another archive. Where there is none, the crate compiles, so that `cargo doc` works, and no
//! program over it links.
//!
//! The allocation functions are those of `resp_alloc.c`, which the C and the Python bindings use too.
//! Writing them in Rust would need no C compiler, but `rattle_dealloc` has no size, which `std::alloc`
//! asks for, and two of the functions return a struct by value, whose layout would then be stated
//! twice. Rust links by `cc` on Linux anyway.

use std::env;
use std::fs;
use std::path::{Path, PathBuf};
use std::process::Command;

fn main() {
    let here = folder("CARGO_MANIFEST_DIR");
    let out = folder("OUT_DIR");
    let native = here.join("native");
    let (archive, allocator) = if native.is_dir() {
        (native.join("libresp_c.a"), native.join("resp_alloc.c"))
    } else {
        let archive = here.join("../../crates/resp_c/out/libresp_c.a");
        (archive, here.join("../c/resp_alloc.c"))
    };
    println!("cargo:rerun-if-env-changed=RESP_C_LIB");
    let archive = env::var_os("RESP_C_LIB").map_or(archive, PathBuf::from);

    if !copy_archive(&archive, &out.join("libresp_c.a")) {
        return;
    }
    build_allocator(&allocator, &out);
    println!("cargo:rustc-link-search=native={}", out.display());
    println!("cargo:rustc-link-lib=static=resp_c");
    println!("cargo:rustc-link-lib=static=resp_alloc");
}

/// A folder that Cargo names.
fn folder(variable: &str) -> PathBuf {
    PathBuf::from(env::var_os(variable).expect("Cargo sets it"))
}

/// Copies the archive to where Cargo looks for it, so that its name is known. Whether it is there.
fn copy_archive(from: &Path, to: &Path) -> bool {
    println!("cargo:rerun-if-changed={}", from.display());
    match fs::copy(from, to) {
        Ok(_) => true,
        Err(error) => {
            println!(
                "cargo:warning={}: {error}. Without it no program links: `rt lib` in crates/resp_c \
                 makes the archive; RESP_C_LIB names another.",
                from.display()
            );
            false
        }
    }
}

/// Compiles the allocation functions to a library.
fn build_allocator(source: &Path, out: &Path) {
    println!("cargo:rerun-if-changed={}", source.display());
    let object = out.join("resp_alloc.o");
    let library = out.join("libresp_alloc.a");
    run(Command::new("cc")
        .args(["-std=c99", "-O2", "-fPIC", "-c", "-o"])
        .args([&object, source]));
    run(Command::new("ar").arg("crs").args([&library, &object]));
}

/// Runs a command, which has to succeed.
fn run(command: &mut Command) {
    match command.status() {
        Ok(status) if status.success() => {}
        Ok(status) => panic!("{command:?}: {status}"),
        Err(error) => panic!("{command:?}: {error}"),
    }
}
