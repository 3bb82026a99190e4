//! Stand-in for `src/message.rs`: the table states report no error, so a message holds nothing.

/// An error message.
#[derive(Clone, Debug, Eq, PartialEq)]
pub struct Message;
