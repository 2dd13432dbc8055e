//! What is made for a mutant, in a folder of its own: copies, crates and the comparison.

use crate::Setting;
use std::ffi::OsStr;
use std::fs;
use std::path::{Path, PathBuf};
use std::process::Command;

pub fn emptied(s: &Setting) -> PathBuf {
    let work = s.work();
    let _ = fs::remove_dir_all(&work);
    fs::create_dir_all(&work).expect("a folder for the mutant");
    work
}

/// Copies a folder, but for what `rt` keeps in a crate's out/.
pub fn copy(from: &Path, to: &Path) {
    fs::create_dir_all(to).expect("a folder");
    for entry in fs::read_dir(from).expect("a folder to copy").flatten().filter(|entry| entry.file_name() != "out") {
        let (path, target) = (entry.path(), to.join(entry.file_name()));
        if path.is_dir() {
            copy(&path, &target);
        } else {
            fs::copy(&path, &target).expect("a copy");
        }
    }
}

/// The crates of the oracle's build, those that are `made` anew from the mutant's folder.
fn rustc(s: &Setting, made: &[&str], args: &[&OsStr]) {
    let words = std::env::var("RUSTC").expect("RUSTC");
    let mut words = words.split_whitespace();
    let mut command = Command::new(words.next().expect("a compiler"));
    command.args(words).args(["--edition", "2024", "-O", "--cap-lints", "allow", "-L"]).arg(s.work());
    command.arg("-L").arg(s.target.join("lib"));
    for entry in fs::read_dir(s.target.join("lib")).expect("the oracle is built").flatten() {
        let file = entry.file_name().to_string_lossy().into_owned();
        let name = file.trim_start_matches("lib").split('.').next().unwrap_or_default().to_string();
        let own = s.work().join(&file);
        let path = if made.contains(&&name[..]) { own } else { entry.path() };
        if path.exists() {
            command.arg("--extern").arg(format!("{name}={}", path.display()));
        }
    }
    assert!(command.args(args).status().expect("rustc runs").success(), "a mutant must build");
}

pub fn rlib(s: &Setting, name: &str, source: &Path, made: &[&str]) {
    let out = s.work().join(format!("lib{name}.rlib"));
    let feature = "feature=\"ring\"";
    let words = ["--crate-type", "rlib", "--crate-name", name, "--cfg", feature, "-o"].map(OsStr::new);
    rustc(s, made, &[&words[..], &[out.as_os_str(), source.as_os_str()]].concat());
}

/// what a program with the library is compiled with besides
pub fn linked(library: &Path) -> Vec<String> {
    ["--cfg", "library", "-C", &format!("link-arg={}", library.display())].map(String::from).to_vec()
}

pub fn program(s: &Setting, made: &[&str], more: &[String]) {
    let (out, source) = (s.work().join("compare"), s.oracle.join("src/compare/main.rs"));
    let mut words: Vec<&OsStr> = more.iter().map(OsStr::new).collect();
    words.extend(["--crate-name", "compare", "-o"].map(OsStr::new));
    rustc(s, made, &[&words[..], &[out.as_os_str(), source.as_os_str()]].concat());
}
