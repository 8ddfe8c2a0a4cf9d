//! Stand-ins for two attribute macros that the given types.rs carries. Neither has a part in the send tables.

use proc_macro::TokenStream;

/// The original adds bit-level reading and writing; here the item stays as it is.
#[proc_macro_attribute]
pub fn abstract_bits(_options: TokenStream, item: TokenStream) -> TokenStream {
    item
}

/// The original writes an error's text; here nothing is added, and the texts are accepted and dropped.
#[proc_macro_derive(Error, attributes(error))]
pub fn error(_item: TokenStream) -> TokenStream {
    TokenStream::new()
}
