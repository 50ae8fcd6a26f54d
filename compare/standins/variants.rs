//! The name, the representation and the variants of an enum, read off the tokens that a derive is handed.
//!
//! Enough for the enums of the original: no generics, and no variant with named fields.

use proc_macro::{Delimiter, TokenStream, TokenTree};

pub struct Enum {
    pub name: String,
    pub repr: String,
    pub variants: Vec<Variant>,
}

pub struct Variant {
    pub name: String,
    /// How many values the variant carries.
    pub fields: usize,
    /// What stands in its `#[error(..)]`.
    pub message: String,
}

pub fn read(input: TokenStream) -> Enum {
    let mut repr = String::new();
    let mut tokens = input.into_iter();
    while let Some(token) = tokens.next() {
        if is_punct(&token, '#') {
            repr = attribute(tokens.next(), "repr").unwrap_or(repr);
        } else if token.to_string() == "enum" {
            break;
        }
    }
    let name = tokens.next().expect("an enum has a name").to_string();
    let Some(TokenTree::Group(body)) = tokens.next() else {
        panic!("{name}: an enum without generics is expected");
    };
    Enum { name, repr, variants: variants(body.stream()) }
}

fn variants(body: TokenStream) -> Vec<Variant> {
    let mut found = Vec::new();
    let mut message = String::new();
    let mut tokens = body.into_iter().peekable();
    while let Some(token) = tokens.next() {
        if is_punct(&token, '#') {
            message = attribute(tokens.next(), "error").unwrap_or(message);
        } else if let TokenTree::Ident(name) = token {
            let fields = tokens.peek().map_or(0, fields_of);
            let message = std::mem::take(&mut message);
            found.push(Variant { name: name.to_string(), fields, message });
            // What is left of the variant, its discriminant among it, ends at the comma.
            tokens.by_ref().find(|token| is_punct(token, ','));
        }
    }
    found
}

fn fields_of(token: &TokenTree) -> usize {
    match token {
        TokenTree::Group(group) if group.delimiter() == Delimiter::Parenthesis => {
            1 + group.stream().into_iter().filter(|token| is_punct(token, ',')).count()
        }
        _ => 0,
    }
}

/// What stands in the parentheses of the attribute of this name; none of any other attribute.
fn attribute(token: Option<TokenTree>, name: &str) -> Option<String> {
    let Some(TokenTree::Group(group)) = token else {
        return None;
    };
    let mut tokens = group.stream().into_iter();
    if tokens.next()?.to_string() != name {
        return None;
    }
    match tokens.next()? {
        TokenTree::Group(inside) => Some(inside.stream().to_string()),
        _ => None,
    }
}

fn is_punct(token: &TokenTree, sign: char) -> bool {
    matches!(token, TokenTree::Punct(punct) if punct.as_char() == sign)
}
