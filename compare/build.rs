//! Names the files of the original to the compiler, unchanged and where they lie.
//!
//! NVS_SOURCE names their folder, from the repository's root where it is no absolute path.

use std::env;
use std::fmt::Write;
use std::fs;
use std::path::Path;

const FILES: [&str; 14] = [
    "blob",
    "compaction",
    "error",
    "get",
    "init",
    "items",
    "mem_flash",
    "nvs",
    "page",
    "platform",
    "raw",
    "set",
    "types",
    "u24",
];

fn main() {
    println!("cargo:rerun-if-env-changed=NVS_SOURCE");
    assert!(
        env::var("DEP_NVS_PAGE_LINKED").is_ok(),
        "there is no archive of the page calls: run `boundary/archive.sh target/staticlib/libboundary.a`, or name one by NVS_PAGE_LIB"
    );
    let root = Path::new(env!("CARGO_MANIFEST_DIR")).parent().expect("the crate lies in the repository");
    let named = env::var("NVS_SOURCE")
        .unwrap_or_else(|_| panic!("set NVS_SOURCE to the folder of the original's files, the src of esp-nvs 0.6.3"));
    let folder = root.join(named);
    let folder = folder
        .canonicalize()
        .unwrap_or_else(|error| panic!("NVS_SOURCE names {}, which cannot be used: {error}", folder.display()));
    let mut modules = String::new();
    for name in FILES {
        let file = folder.join(name).with_extension("rs");
        assert!(file.is_file(), "NVS_SOURCE names a folder without {name}.rs of the original: {}", folder.display());
        println!("cargo:rerun-if-changed={}", file.display());
        writeln!(modules, "#[allow(dead_code, clippy::all)] #[path = {file:?}] mod {name};").unwrap();
    }
    let out = env::var("OUT_DIR").expect("cargo names the folder for what is made");
    fs::write(Path::new(&out).join("original.rs"), modules).expect("the list of modules is written");
}
