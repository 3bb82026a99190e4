//! Runs the table part of crate markdown 1.0.0 from its own files and gives its answers.
//!
//! The crate's files name each other by `crate::...`, so they and the stand-ins stand at the root here.

extern crate alloc;

// The crate's own files, unchanged.
include!(concat!(env!("OUT_DIR"), "/given_root.rs"));

// Stand-ins for files of the crate that are not given.
#[path = "stand_in/construct.rs"]
pub mod construct;
#[path = "stand_in/mdast.rs"]
pub mod mdast;
#[path = "stand_in/message.rs"]
pub mod message;
#[path = "stand_in/options.rs"]
pub mod options;
#[path = "stand_in/state.rs"]
pub mod state;
#[path = "stand_in/unist.rs"]
pub mod unist;
#[path = "stand_in/util.rs"]
pub mod util;
pub use options::{Constructs, ParseOptions};

// The harness.
pub mod bom;
pub mod calls;
pub mod counts;
pub mod crate_only;
pub mod drive;
pub mod flow;
pub mod guard;
pub mod kept;
pub mod kinds;
pub mod lines;
pub mod orders;
pub mod print;
pub mod protocol;
pub mod questions;
pub mod read;
pub mod record;
pub mod run;
pub mod shapes;
pub mod watch;

#[cfg(test)]
mod tests;
