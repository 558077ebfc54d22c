//! The Rust functions of oxc_minifier 0.157.0 as judge of the fold.

mod answer_list;
pub mod answers;
mod arena;
mod ast;
pub mod build;
#[rustfmt::skip] // the text is that of the crate
mod carried;
mod checks;
pub mod command_line;
pub mod commands;
mod context;
mod convert;
mod effects;
pub mod fold;
pub mod foldlist;
pub mod generate;
pub mod measure;
pub mod origin;
pub mod random;
pub mod record;
pub mod refusal;
pub mod scripts;
pub mod steady;
