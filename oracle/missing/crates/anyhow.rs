//! This crate stands in for the crate of errors, of which the source only names this type.
pub type Result<T> = std::result::Result<T, String>;
