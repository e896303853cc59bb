//! A stand-in for the derive `Savefile` that the given Rust names.
//!
//! It hands out every field and takes every field in, by the trait `crate::fields::Fields`. The code is made inside
//! the file that names the derive, so it reaches private fields. Structs and enum variants with named fields are all
//! that the given Rust uses and all that is understood here.

extern crate proc_macro;

use proc_macro::{Delimiter, TokenStream, TokenTree};
use std::iter::Peekable;

type Tokens = Peekable<proc_macro::token_stream::IntoIter>;

#[proc_macro_derive(Savefile)]
pub fn savefile(input: TokenStream) -> TokenStream {
    let mut tokens = input.into_iter().peekable();
    skip_attributes_and_visibility(&mut tokens);
    let kind = ident(&mut tokens);
    let name = ident(&mut tokens);
    let body = braces(&mut tokens);
    let arms = match kind.as_str() {
        "struct" => vec![Arm { pattern: name.clone(), variant: None, fields: field_names(body) }],
        "enum" => variants(&name, body),
        other => panic!("derive(Savefile): {other} is not understood"),
    };
    write_impl(&name, &arms).parse().expect("derive(Savefile): the code made does not parse")
}

/// A struct, or one variant of an enum.
struct Arm {
    pattern: String,
    variant: Option<String>,
    fields: Vec<String>,
}

fn write_impl(name: &str, arms: &[Arm]) -> String {
    let mut dump = String::new();
    let mut load = String::new();
    for arm in arms {
        // fields are bound to f0, f1, ... so that no field's name can hide `at`, `out` or `get`
        let bound: String = arm.fields.iter().enumerate().map(|(i, f)| format!("{f}: f{i}, ")).collect();
        let (enter, leave) = match &arm.variant {
            Some(v) => (format!("at.push(Part::Variant({v:?}));"), "at.pop();"),
            None => (String::new(), ""),
        };
        let each = |call: &str, last: &str| -> String {
            (0..arm.fields.len())
                .map(|i| {
                    let f = &arm.fields[i];
                    format!("at.push(Part::Name({f:?})); Fields::{call}(f{i}, at, {last}); at.pop();")
                })
                .collect()
        };
        dump += &format!("{} {{ {bound} }} => {{ {enter} {} {leave} }}\n", arm.pattern, each("dump", "out"));
        load += &format!("{} {{ {bound} }} => {{ {enter} {} {leave} }}\n", arm.pattern, each("load", "get"));
    }
    format!(
        "const _: () = {{
            use crate::fields::{{Fields, Part}};
            impl Fields for {name} {{
                fn dump(&self, at: &mut Vec<Part>, out: &mut dyn FnMut(&[Part], i64)) {{ match self {{ {dump} }} }}
                fn load(&mut self, at: &mut Vec<Part>, get: &mut dyn FnMut(&[Part]) -> Option<i64>) {{
                    match self {{ {load} }}
                }}
            }}
        }};"
    )
}

fn variants(name: &str, body: TokenStream) -> Vec<Arm> {
    let mut tokens = body.into_iter().peekable();
    let mut arms = Vec::new();
    loop {
        skip_attributes_and_visibility(&mut tokens);
        if tokens.peek().is_none() {
            return arms;
        }
        let variant = ident(&mut tokens);
        let fields = field_names(braces(&mut tokens));
        arms.push(Arm { pattern: format!("{name}::{variant}"), variant: Some(variant), fields });
        skip_past_comma(&mut tokens);
    }
}

fn field_names(body: TokenStream) -> Vec<String> {
    let mut tokens = body.into_iter().peekable();
    let mut names = Vec::new();
    loop {
        skip_attributes_and_visibility(&mut tokens);
        if tokens.peek().is_none() {
            return names;
        }
        names.push(ident(&mut tokens));
        skip_past_comma(&mut tokens); // the colon and the type; the commas of an array type lie inside its group
    }
}

fn skip_attributes_and_visibility(tokens: &mut Tokens) {
    loop {
        match tokens.peek() {
            Some(TokenTree::Punct(p)) if p.as_char() == '#' => {
                tokens.next();
                tokens.next();
            }
            Some(TokenTree::Ident(i)) if i.to_string() == "pub" => {
                tokens.next();
                if let Some(TokenTree::Group(g)) = tokens.peek() {
                    if g.delimiter() == Delimiter::Parenthesis {
                        tokens.next();
                    }
                }
            }
            _ => return,
        }
    }
}

fn skip_past_comma(tokens: &mut Tokens) {
    for token in tokens.by_ref() {
        match token {
            TokenTree::Punct(p) if p.as_char() == ',' => return,
            TokenTree::Punct(p) if p.as_char() == '<' => panic!("derive(Savefile): type arguments are not understood"),
            _ => {}
        }
    }
}

fn ident(tokens: &mut Tokens) -> String {
    match tokens.next() {
        Some(TokenTree::Ident(i)) => i.to_string(),
        other => panic!("derive(Savefile): a name was expected, not {other:?}"),
    }
}

fn braces(tokens: &mut Tokens) -> TokenStream {
    match tokens.next() {
        Some(TokenTree::Group(g)) if g.delimiter() == Delimiter::Brace => g.stream(),
        other => panic!("derive(Savefile): braces were expected, not {other:?}"),
    }
}
