//! Links the archive of the C boundary, and takes the Rust's `software_crc32` as it stands.
//!
//! NVS_SOURCE names the folder of the Rust's sources, and NVS_PAGE_LIB the archive, each from the repository's root where it is no
//! absolute path. Without NVS_PAGE_LIB the archive is target/staticlib/libboundary.a, where `boundary/archive.sh target/staticlib/libboundary.a` puts it.

use std::{env, fs, path::Path};

const HEAD: &str = "pub fn software_crc32";

/// The text of one function: from its head to the first line that is a brace alone.
fn function<'a>(text: &'a str, head: &str) -> Option<&'a str> {
    let from = text.find(head)?;
    let to = text[from..].find("\n}\n")? + 3;
    Some(&text[from..from + to])
}

/// Takes the function out of the Rust's `platform.rs`.
fn take_crc(root: &Path) {
    println!("cargo:rerun-if-env-changed=NVS_SOURCE");
    let named = env::var("NVS_SOURCE").unwrap_or_else(|_| {
        panic!("set NVS_SOURCE to the folder of the Rust's sources, the src of esp-nvs 0.6.3")
    });
    let platform = root.join(named).join("platform.rs");
    println!("cargo:rerun-if-changed={}", platform.display());
    let text = fs::read_to_string(&platform).unwrap_or_else(|error| {
        panic!(
            "{}, in the folder that NVS_SOURCE names, cannot be read: {error}",
            platform.display()
        )
    });
    let crc =
        function(&text, HEAD).unwrap_or_else(|| panic!("{} has no `{HEAD}`", platform.display()));
    let out = env::var("OUT_DIR").expect("cargo names the folder for what is made");
    fs::write(Path::new(&out).join("software_crc32.rs"), crc).expect("the function is written");
}

fn link_archive(root: &Path) {
    println!("cargo:rerun-if-env-changed=NVS_PAGE_LIB");
    let named = env::var("NVS_PAGE_LIB").unwrap_or("target/staticlib/libboundary.a".into());
    let archive = root.join(named);
    println!("cargo:rerun-if-changed={}", archive.display());
    assert!(
        archive.is_file(),
        "there is no archive at {}: run `boundary/archive.sh target/staticlib/libboundary.a`, or name one by NVS_PAGE_LIB",
        archive.display()
    );
    let folder = archive.parent().expect("a file lies in a folder");
    let file = archive
        .file_name()
        .expect("a file has a name")
        .to_string_lossy();
    println!("cargo:rustc-link-search=native={}", folder.display());
    println!("cargo:rustc-link-lib=static:+verbatim={file}");
}

fn main() {
    let root = Path::new(env!("CARGO_MANIFEST_DIR"))
        .parent()
        .expect("the crate lies in the repository");
    take_crc(root);
    link_archive(root);
}
