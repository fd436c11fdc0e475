//! The source names this module, but its text is not given. The source re-exports the two names; nothing uses them
//! while the feature `stress-test` is off.
pub struct StressConfig;
pub struct StressMode;
