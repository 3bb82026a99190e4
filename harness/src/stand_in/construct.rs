//! The given constructs, and stand-ins for those that `resolve.rs` and `label_end.rs` name.
//! No stand-in here is ever called: the harness registers and runs the table resolver alone.

include!(concat!(env!("OUT_DIR"), "/given_construct.rs"));

/// A construct whose resolver is not given.
macro_rules! resolver_not_given {
    ($($name:ident)*) => {$(
        pub mod $name {
            use crate::subtokenize::Subresult;
            use crate::tokenizer::Tokenizer;

            pub fn resolve(_: &mut Tokenizer) -> Option<Subresult> {
                unreachable!("not part of tables")
            }
        }
    )*};
}

resolver_not_given!(attention heading_atx heading_setext list_item partial_data string text);

/// Content: its resolver may report an error.
pub mod content {
    use crate::message::Message;
    use crate::subtokenize::Subresult;
    use crate::tokenizer::Tokenizer;

    pub fn resolve(_: &mut Tokenizer) -> Result<Option<Subresult>, Message> {
        unreachable!("not part of tables")
    }
}

/// Whitespace with a line end, used by labels alone.
pub mod partial_space_or_tab_eol {
    use crate::state::Name;
    use crate::tokenizer::Tokenizer;

    pub fn space_or_tab_eol(_: &mut Tokenizer) -> Name {
        unreachable!("not part of tables")
    }
}
