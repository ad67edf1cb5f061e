//! Derive macros for the crates that the stand-ins replace. `Logos` reads the `#[token]` and
//! `#[regex]` attributes of the enum and hands their literals on as they stand.

use proc_macro::{TokenStream, TokenTree};

/// Stand-in for `logos::Logos`.
#[proc_macro_derive(Logos, attributes(token, regex))]
pub fn logos(item: TokenStream) -> TokenStream {
    let (name, variants) = enum_parts(item);
    let mut rules = String::new();
    for Variant { attributes, name: variant } in variants {
        for (attribute, arguments) in attributes {
            if attribute != "token" && attribute != "regex" {
                continue;
            }
            let mut arguments = arguments.into_iter();
            let literal = arguments.next().expect("a literal comes first");
            // What follows the comma is the path of the callback.
            let callback: TokenStream = arguments.skip(1).collect();
            let callback =
                if callback.is_empty() { "None".to_owned() } else { format!("Some({callback})") };
            rules +=
                &format!("::logos::Rule::{attribute}({literal}, {name}::{variant}, {callback}),");
        }
    }
    format!(
        "impl ::logos::Logos for {name} {{
            fn rules() -> &'static ::logos::Rules<Self> {{
                static RULES: ::std::sync::LazyLock<::logos::Rules<{name}>> =
                    ::std::sync::LazyLock::new(|| ::logos::Rules::new(vec![{rules}]));
                &RULES
            }}
        }}"
    )
    .parse()
    .expect("the text above is Rust")
}

/// Stand-in for `thiserror::Error`: the texts of `#[error]`.
#[proc_macro_derive(Error, attributes(error))]
pub fn error(item: TokenStream) -> TokenStream {
    let (name, variants) = enum_parts(item);
    let mut arms = String::new();
    for Variant { attributes, name: variant } in variants {
        for (_, text) in attributes.into_iter().filter(|(attribute, _)| attribute == "error") {
            arms += &format!("{name}::{variant} => {text},");
        }
    }
    format!(
        "impl ::std::fmt::Display for {name} {{
            fn fmt(&self, f: &mut ::std::fmt::Formatter<'_>) -> ::std::fmt::Result {{
                f.write_str(match self {{ {arms} }})
            }}
        }}
        impl ::std::error::Error for {name} {{}}"
    )
    .parse()
    .expect("the text above is Rust")
}

/// Stand-in for `jrsonnet_gcmodule::Acyclic`, which the stand-in trait gives to every type.
#[proc_macro_derive(Acyclic)]
pub fn acyclic(_item: TokenStream) -> TokenStream {
    TokenStream::new()
}

struct Variant {
    /// Name and what stands in the parentheses, of those attributes that have any.
    attributes: Vec<(String, TokenStream)>,
    name: String,
}

/// The name of an enum and its variants, which hold no data.
fn enum_parts(item: TokenStream) -> (String, Vec<Variant>) {
    let mut trees = item.into_iter();
    trees.by_ref().find(|tree| tree.to_string() == "enum").expect("derived for an enum");
    let (Some(TokenTree::Ident(name)), Some(TokenTree::Group(body))) = (trees.next(), trees.next())
    else {
        panic!("an enum has a name and a body");
    };
    let mut variants = Vec::new();
    let mut attributes = Vec::new();
    for tree in body.stream() {
        match tree {
            TokenTree::Punct(_) => {}
            TokenTree::Group(group) => attributes.extend(attribute(group.stream())),
            TokenTree::Ident(name) => variants.push(Variant {
                attributes: std::mem::take(&mut attributes),
                name: name.to_string(),
            }),
            TokenTree::Literal(literal) => panic!("a variant with a value: {literal}"),
        }
    }
    (name.to_string(), variants)
}

fn attribute(attribute: TokenStream) -> Option<(String, TokenStream)> {
    let mut trees = attribute.into_iter();
    match (trees.next(), trees.next()) {
        (Some(TokenTree::Ident(name)), Some(TokenTree::Group(group))) => {
            Some((name.to_string(), group.stream()))
        }
        _ => None,
    }
}
