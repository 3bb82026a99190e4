//! The given utilities, and stand-ins for those that the given files name.
//! No stand-in here is ever called: labels, locations and character classes are not part of tables.

include!(concat!(env!("OUT_DIR"), "/given_util.rs"));

/// Named by `parser.rs`.
pub mod location {
    #[derive(Debug)]
    pub struct Location;

    impl Location {
        pub fn new(_: &[u8]) -> Location {
            Location
        }
    }
}

/// Named by `char.rs`.
pub mod unicode {
    pub const PUNCTUATION: [char; 0] = [];
}

/// Named by `label_end.rs`.
pub mod normalize_identifier {
    pub fn normalize_identifier(_: &str) -> String {
        unreachable!("not part of tables")
    }
}

/// Named by `label_end.rs`.
pub mod slice {
    use crate::event::Event;

    pub struct Position;

    impl Position {
        pub fn from_exit_event(_: &[Event], _: usize) -> Position {
            unreachable!("not part of tables")
        }
    }

    pub struct Slice;

    impl Slice {
        pub fn from_indices(_: &[u8], _: usize, _: usize) -> Slice {
            unreachable!("not part of tables")
        }

        pub fn from_position(_: &[u8], _: &Position) -> Slice {
            unreachable!("not part of tables")
        }

        pub fn as_str(&self) -> &str {
            unreachable!("not part of tables")
        }
    }
}
