//! Links the archive of the page calls. `cfg(archive)` says in this crate whether it is there, and
//! DEP_NVS_PAGE_LINKED in the build script of a crate above.
//!
//! NVS_PAGE_LIB names the archive, from the repository's root where it is no absolute path. Without it the archive is
//! target/staticlib/libboundary.a, where `boundary/archive.sh target/staticlib/libboundary.a` puts it.

use std::env;
use std::path::Path;

fn main() {
    println!("cargo:rerun-if-env-changed=NVS_PAGE_LIB");
    println!("cargo:rustc-check-cfg=cfg(archive)");
    let root = Path::new(env!("CARGO_MANIFEST_DIR")).parent().expect("the crate lies in the repository");
    let named = env::var("NVS_PAGE_LIB").unwrap_or("target/staticlib/libboundary.a".into());
    let archive = root.join(named);
    println!("cargo:rerun-if-changed={}", archive.display());
    println!("cargo:rustc-env=NVS_PAGE_ARCHIVE={}", archive.display());
    if !archive.is_file() {
        println!("cargo:warning=no archive at {}: nothing is linked", archive.display());
        return;
    }
    let folder = archive.parent().expect("a file lies in a folder");
    let file = archive.file_name().expect("a file has a name").to_string_lossy();
    println!("cargo:rustc-link-search=native={}", folder.display());
    println!("cargo:rustc-link-lib=static:+verbatim={file}");
    println!("cargo:rustc-cfg=archive");
    println!("cargo:linked=yes");
}
