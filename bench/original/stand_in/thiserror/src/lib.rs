//! A stand-in for `thiserror`: an error is shown as it is in debugging.
use proc_macro::{TokenStream, TokenTree};

#[proc_macro_derive(Error, attributes(error))]
pub fn error(item: TokenStream) -> TokenStream {
    let mut words = item.into_iter().skip_while(|word| !matches!(word, TokenTree::Ident(word) if word.to_string() == "struct"));
    let name = words.nth(1).expect("a name");
    format!(
        "impl ::std::fmt::Display for {name} {{
            fn fmt(&self, f: &mut ::std::fmt::Formatter<'_>) -> ::std::fmt::Result {{ ::std::fmt::Debug::fmt(self, f) }}
        }}
        impl ::std::error::Error for {name} {{}}"
    )
    .parse()
    .expect("two impls")
}
