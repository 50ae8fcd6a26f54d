//! The header for C and the declarations for Rust say the same: names, parameters in their order, types.

use std::fs;
use std::path::{Path, PathBuf};
use std::process::Command;

fn header() -> PathBuf {
    Path::new(env!("CARGO_MANIFEST_DIR")).join("../boundary/nvs_page.h")
}

/// The text without its comments, on one line.
fn bare(text: &str) -> String {
    let mut bare = String::new();
    let mut rest = text;
    while let Some((before, comment)) = rest.split_once("/*") {
        bare.push_str(before);
        rest = comment.split_once("*/").expect("a comment ends").1;
    }
    bare.push_str(rest);
    let lines = bare.lines().filter(|line| !line.trim_start().starts_with("//"));
    lines.collect::<Vec<_>>().join(" ").split_whitespace().collect::<Vec<_>>().join(" ")
}

/// What a type of C is in Rust.
fn type_of(c: &str) -> &'static str {
    match c.trim() {
        "const uint8_t *" => "*const u8",
        "uint8_t *" => "*mut u8",
        "size_t" => "usize",
        "uint8_t" => "u8",
        "uint32_t" => "u32",
        "uint64_t" => "u64",
        other => panic!("{other}: not a type of the boundary"),
    }
}

/// `uint32_t nvs_x(const uint8_t *key, size_t key_length)` as `nvs_x(key: *const u8, key_length: usize) -> u32`.
fn of_c(declaration: &str) -> String {
    let (head, parameters) = declaration.split_once('(').expect("a function has parameters");
    let (returned, name) = head.trim().rsplit_once(' ').expect("a function has a type");
    let parameters = parameters.trim_end_matches([')', ' ']).split(',').map(|parameter| {
        let name = parameter.rsplit([' ', '*']).next().expect("a parameter has a name");
        format!("{name}: {}", type_of(parameter.strip_suffix(name).expect("its name is its end")))
    });
    format!("{name}({}) -> {}", parameters.collect::<Vec<_>>().join(", "), type_of(returned))
}

fn declarations_of_c() -> Vec<String> {
    let text = bare(&fs::read_to_string(header()).expect("the header is there"));
    let parts = text.split(';').filter(|part| part.contains("nvs_") && part.contains('('));
    parts.map(|part| of_c(&part[part.find("uint").expect("a function has a type")..])).collect()
}

fn declarations_of_rust() -> Vec<String> {
    let text = bare(include_str!("../src/sys.rs"));
    let parts = text.split("pub fn ").skip(1).map(|part| part.split(';').next().expect("a declaration ends"));
    parts.map(|part| part.trim().replace("( ", "(").replace(", )", ")")).collect()
}

#[test]
fn both_declare_the_same() {
    let (c, rust) = (declarations_of_c(), declarations_of_rust());
    assert_eq!(c.len(), 23);
    for (c, rust) in c.iter().zip(&rust) {
        assert_eq!(c, rust);
    }
    assert_eq!(c.len(), rust.len());
}

#[test]
fn the_header_is_c() {
    let header = header();
    let mut checked = Command::new("cc");
    checked.args(["-std=c99", "-Wall", "-Wextra", "-pedantic", "-Werror", "-fsyntax-only"]);
    match checked.arg(&header).status() {
        Ok(status) => assert!(status.success()),
        Err(_) => println!("skipped: there is no C compiler at hand"),
    }
}

/// Says so where the other tests had no archive to run on.
#[test]
fn archive_is_linked() {
    if cfg!(archive) {
        println!("linked with {}", env!("NVS_PAGE_ARCHIVE"));
    } else {
        println!("skipped: no archive at {}, so no call was tested", env!("NVS_PAGE_ARCHIVE"));
    }
}
