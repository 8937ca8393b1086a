//! Derives that write nothing: `Collect` for gc_arena.rs, `Error` for thiserror.rs.
extern crate proc_macro;
use proc_macro::TokenStream;

#[proc_macro_derive(Collect, attributes(collect))]
pub fn collect(_: TokenStream) -> TokenStream {
    TokenStream::new()
}

#[proc_macro_derive(Error, attributes(error, from))]
pub fn error(_: TokenStream) -> TokenStream {
    TokenStream::new()
}
