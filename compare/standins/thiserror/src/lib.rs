//! Stands in for the crate `thiserror`: the derive `Error`, of an enum whose variants carry values by place.
#[allow(dead_code)]
#[path = "../../variants.rs"]
mod variants;

use proc_macro::TokenStream;
use std::fmt::Write;

/// `Display` by each variant's `#[error("..")]`, and `core::error::Error`.
#[proc_macro_derive(Error, attributes(error))]
pub fn error(input: TokenStream) -> TokenStream {
    let variants::Enum { name, variants, .. } = variants::read(input);
    let mut arms = String::new();
    for variant in variants {
        let carried: Vec<String> = (0..variant.fields).map(|i| format!("v{i}")).collect();
        let carried = carried.join(", ");
        let pattern = if carried.is_empty() { String::new() } else { format!("({carried})") };
        let (variant, message) = (variant.name, variant.message);
        write!(arms, "{name}::{variant}{pattern} => write!(f, {message}, {carried}), ").unwrap();
    }
    let made = format!(
        "impl core::fmt::Display for {name} {{ fn fmt(&self, f: &mut core::fmt::Formatter<'_>) -> core::fmt::Result \
         {{ match self {{ {arms} }} }} }} impl core::error::Error for {name} {{}}"
    );
    made.parse().unwrap()
}
