//! The derives that api/mod.rs names. They add nothing: no file here uses what they would give.

use proc_macro::TokenStream;

/// Stands for num_derive::FromPrimitive.
#[proc_macro_derive(FromPrimitive)]
pub fn from_primitive(_: TokenStream) -> TokenStream {
    TokenStream::new()
}

/// Stands for num_derive::ToPrimitive.
#[proc_macro_derive(ToPrimitive)]
pub fn to_primitive(_: TokenStream) -> TokenStream {
    TokenStream::new()
}

/// Stands for thiserror::Error, with its attribute `#[error(..)]`.
#[proc_macro_derive(Error, attributes(error))]
pub fn error(_: TokenStream) -> TokenStream {
    TokenStream::new()
}
