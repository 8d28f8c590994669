//! Stands in for serde. The original derives `Serialize` for its reports,
//! which nothing here prints, so the derive produces no code at all.

use proc_macro::TokenStream;

#[proc_macro_derive(Serialize, attributes(serde))]
pub fn serialize(_item: TokenStream) -> TokenStream {
    TokenStream::new()
}
