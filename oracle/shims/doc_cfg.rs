// `#[doc_cfg(P)]` as `#[cfg(P)]`.
extern crate proc_macro;
use proc_macro::TokenStream;

#[proc_macro_attribute]
pub fn doc_cfg(attr: TokenStream, item: TokenStream) -> TokenStream {
    format!("#[cfg({attr})] {item}").parse().unwrap()
}
