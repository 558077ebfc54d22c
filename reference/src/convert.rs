//! From the records of an accepted file to the carried functions' tree and context, and back.

mod context_of;
mod read_trees;
mod write_trees;

pub use context_of::context_of;
pub use read_trees::read_statements;
pub use write_trees::write_statements;
