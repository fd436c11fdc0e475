//! The source names this module, but its text is not given. It is empty because nothing of it is used.
