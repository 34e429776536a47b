//! Stands in for serde's derive macros.
//! They must accept the attribute `serde` and generate nothing.

use proc_macro::TokenStream;

#[proc_macro_derive(Serialize, attributes(serde))]
pub fn derive_serialize(_: TokenStream) -> TokenStream {
    TokenStream::new()
}

#[proc_macro_derive(Deserialize, attributes(serde))]
pub fn derive_deserialize(_: TokenStream) -> TokenStream {
    TokenStream::new()
}
