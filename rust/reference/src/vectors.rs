//! The stored vectors: what the vector programs read, made from a seed, and what they have to print.

pub mod directories;
pub mod edits;
pub mod files;
pub mod leaves;
pub mod lines;
mod second_edition;
