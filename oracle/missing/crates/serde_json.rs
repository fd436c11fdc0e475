//! This crate stands in for the one by which the source's default callback prints a report as JSON. That callback is
//! never called here.
pub fn to_string_pretty<T>(_: &T) -> Result<String, ()> {
    Err(())
}
