//! Stand-in for `thiserror`: nothing here prints an error, so the derivation adds nothing.

use proc_macro::TokenStream;

/// Accept the attributes of the original, and derive nothing.
#[proc_macro_derive(Error, attributes(error, from))]
pub fn error(_item: TokenStream) -> TokenStream {
    TokenStream::new()
}
