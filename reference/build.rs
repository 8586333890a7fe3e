//! With the feature `library`: links the executor's static library into the program `fuzz` alone, and reads the size of a session
//! from its header. HANDSET_LIB names libbinding.a; HANDSET_HEADER names handset.h, by default ../../include/handset.h beside it.

use std::env;
use std::fs;
use std::path::{Path, PathBuf};

fn main() {
    println!("cargo:rerun-if-env-changed=HANDSET_LIB");
    println!("cargo:rerun-if-env-changed=HANDSET_HEADER");
    if env::var_os("CARGO_FEATURE_LIBRARY").is_none() {
        return;
    }
    let library = PathBuf::from(env::var("HANDSET_LIB").expect("HANDSET_LIB names libbinding.a"));
    let library = library.canonicalize().expect("HANDSET_LIB is a file");
    let header = env::var("HANDSET_HEADER").map_or_else(|_| header_beside(&library), PathBuf::from);
    let text = fs::read_to_string(&header).expect("HANDSET_HEADER is a file");
    println!("cargo:rerun-if-changed={}", library.display());
    println!("cargo:rerun-if-changed={}", header.display());
    println!("cargo:rustc-env=HANDSET_LIB={}", library.display());
    println!("cargo:rustc-env=HANDSET_SESSION_BYTES={}", session_bytes(&text));
    println!("cargo:rustc-link-arg-bin=fuzz={}", library.display());
}

/// A project keeps its library in target/staticlib and its header in include.
fn header_beside(library: &Path) -> PathBuf {
    library.parent().expect("a folder").join("../../include/handset.h")
}

/// The number behind HANDSET_SESSION_BYTES.
fn session_bytes(header: &str) -> usize {
    let (_, behind) = header.split_once("define HANDSET_SESSION_BYTES").expect("the header defines HANDSET_SESSION_BYTES");
    let digits: String = behind.trim_start().chars().take_while(char::is_ascii_digit).collect();
    digits.parse().expect("a number")
}
