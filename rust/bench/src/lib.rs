//! What the benchmark measures: sheets, an idiomatic judge beside the proved one, and readers of a column beside the proved one.

pub mod files;
pub mod idiomatic;
pub mod readers;
