//! What the program does on command.

pub mod batch;
pub mod check;
pub mod program;
pub mod write;
