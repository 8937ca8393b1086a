//! Stands in for the crate `thiserror`. Only messages are lost.
pub use derives::Error;
