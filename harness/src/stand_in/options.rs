//! Stand-in for the options (`src/configuration.rs`): the switches that the given files read.

/// Which constructs are on.
#[derive(Debug)]
pub struct Constructs {
    pub code_indented: bool,
    pub gfm_table: bool,
    pub gfm_task_list_item: bool,
    pub label_end: bool,
}

/// Options for reading.
#[derive(Debug)]
pub struct ParseOptions {
    pub constructs: Constructs,
    pub mdx_esm_parse: Option<()>,
    pub mdx_expression_parse: Option<()>,
}

impl ParseOptions {
    /// Tables are on; indented code is on or off; everything else is off.
    pub fn tables(code_indented: bool) -> ParseOptions {
        ParseOptions {
            constructs: Constructs { code_indented, gfm_table: true, gfm_task_list_item: false, label_end: false },
            mdx_esm_parse: None,
            mdx_expression_parse: None,
        }
    }
}
