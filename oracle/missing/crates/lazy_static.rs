//! This crate stands in for the crate of lazy statics, in the one form that the source uses.
#[macro_export]
macro_rules! lazy_static {
    ($(static ref $name:ident : $kind:ty = $value:expr;)*) => {
        $(static $name: std::sync::LazyLock<$kind> = std::sync::LazyLock::new(|| $value);)*
    };
}
