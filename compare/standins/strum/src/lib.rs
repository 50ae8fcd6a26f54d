//! Stands in for the crate `strum`: the derives `FromRepr` and `Display`, of enums whose variants carry nothing.
#[allow(dead_code)]
#[path = "../../variants.rs"]
mod variants;

use proc_macro::TokenStream;
use std::fmt::Write;

/// `from_repr`: the variant whose discriminant is the number given, if there is one.
#[proc_macro_derive(FromRepr)]
pub fn from_repr(input: TokenStream) -> TokenStream {
    let variants::Enum { name, repr, variants } = variants::read(input);
    let mut arms = String::new();
    for variant in variants {
        let variant = variant.name;
        write!(arms, "if number == {name}::{variant} as {repr} {{ return Some({name}::{variant}); }} ").unwrap();
    }
    let made =
        format!("impl {name} {{ #[inline] pub const fn from_repr(number: {repr}) -> Option<Self> {{ {arms} None }} }}");
    made.parse().unwrap()
}

/// `Display`: the variant's name, padded as the format asks.
#[proc_macro_derive(Display)]
pub fn display(input: TokenStream) -> TokenStream {
    let variants::Enum { name, variants, .. } = variants::read(input);
    let mut arms = String::new();
    for variant in variants {
        let variant = variant.name;
        write!(arms, "{name}::{variant} => \"{variant}\", ").unwrap();
    }
    let made = format!(
        "impl core::fmt::Display for {name} {{ fn fmt(&self, f: &mut core::fmt::Formatter<'_>) -> core::fmt::Result \
         {{ f.pad(match self {{ {arms} }}) }} }}"
    );
    made.parse().unwrap()
}
