//! Stands in for the crate `displaydoc`: `Display` prints the type's name, since no text of dfu-core's is compared.

use proc_macro::{TokenStream, TokenTree};

/// Derives `Display` for an enum without parameters.
#[proc_macro_derive(Display)]
pub fn display(item: TokenStream) -> TokenStream {
    let name = item
        .into_iter()
        .skip_while(|token| token.to_string() != "enum")
        .find_map(|token| match token {
            TokenTree::Ident(word) if word.to_string() != "enum" => Some(word.to_string()),
            _ => None,
        })
        .expect("an enum");
    format!(
        "impl ::core::fmt::Display for {name} {{
            fn fmt(&self, f: &mut ::core::fmt::Formatter<'_>) -> ::core::fmt::Result {{
                f.write_str({name:?})
            }}
        }}"
    )
    .parse()
    .expect("an impl")
}
