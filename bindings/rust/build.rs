//! Finds the static library: LIBDOOR, or the one that the repository which this crate stands in has made for the processor.

use std::path::{Path, PathBuf};
use std::{env, process};

fn main() {
    println!("cargo::rerun-if-env-changed=LIBDOOR");
    let (place, made_by) = made();
    let here = PathBuf::from(env::var_os("CARGO_MANIFEST_DIR").expect("cargo sets it"));
    let library = here.join(env::var_os("LIBDOOR").unwrap_or(place.into()));
    println!("cargo::rerun-if-changed={}", library.display());
    if !library.is_file() {
        stop(&format!(
            "no static library at {}: make it with '{made_by}', or say where it is by LIBDOOR",
            library.display()
        ));
    }
    let Some((folder, name)) = linked(&library) else {
        stop(&format!("LIBDOOR is {}: a linker wants a file libNAME.a", library.display()));
    };
    println!("cargo::rustc-link-search=native={folder}");
    println!("cargo::rustc-link-lib=static={name}");
}

/// Where the processor's library stands, and what makes it. An older ARM would link armv7's, and stop at its instructions.
fn made() -> (&'static str, &'static str) {
    let armv7 = env::var("TARGET").is_ok_and(|target| target.starts_with("armv7"));
    match env::var("CARGO_CFG_TARGET_ARCH").as_deref() {
        Ok("x86_64") => ("../../target/staticlib/libdoor.a", "bindings/library.sh"),
        Ok("aarch64") => ("../../target/staticlib/aarch64/libdoor.a", "bindings/cross.sh aarch64"),
        Ok("riscv64") => ("../../target/staticlib/riscv64/libdoor.a", "bindings/cross.sh riscv64"),
        Ok("arm") if armv7 => ("../../target/staticlib/armv7/libdoor.a", "bindings/cross.sh armv7"),
        _ => stop("there is a library for x86_64, aarch64, riscv64 and armv7, and for no other processor"),
    }
}

/// The folder to search, and the name to search for.
fn linked(library: &Path) -> Option<(&str, &str)> {
    let name = library.file_name()?.to_str()?.strip_prefix("lib")?.strip_suffix(".a")?;
    Some((library.parent()?.to_str()?, name))
}

/// A logged error fails the build by itself, and cargo then prints nothing else.
fn stop(why: &str) -> ! {
    println!("cargo::error={why}");
    process::exit(0)
}
