//! What the programs of this package share.

pub mod edits;
pub mod measure;
pub mod report;
pub mod subjects;
