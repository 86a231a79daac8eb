//! A stand-in for the package `strum_macros`: `Display` for an enum, which no answer depends on.

extern crate proc_macro;
use proc_macro::{TokenStream, TokenTree};

/// Writes the type's name and nothing of the case.
#[proc_macro_derive(Display, attributes(strum))]
pub fn display(item: TokenStream) -> TokenStream {
    let mut words = item.into_iter().skip_while(|t| !matches!(t, TokenTree::Ident(i) if i.to_string() == "enum"));
    let name = words.nth(1).expect("the name of an enum");
    format!(
        "impl std::fmt::Display for {name} {{
            fn fmt(&self, f: &mut std::fmt::Formatter<'_>) -> std::fmt::Result {{ f.write_str(\"{name}\") }}
        }}"
    )
    .parse()
    .expect("an implementation")
}
