//! The source names this module, but its text is not given. It only has to name the graph. The lock-order graph belongs
//! to a feature that is off.
mod wait_for_graph;
pub use wait_for_graph::WaitForGraph;
