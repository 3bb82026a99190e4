//! Head lines by the crate's count `size_b`: one for each divider and each run of data, and one more unless a divider
//! leads.

/// A head line, and the number of its cells.
pub struct Line {
    pub text: Vec<u8>,
    pub cells: usize,
}

/// Lines that are counted so often, at least twice: dividers, runs of data, both in turn.
pub const LINES: [fn(usize) -> Line; 3] = [dividers, runs, turns];

fn dividers(count: usize) -> Line {
    Line { text: vec![b'|'; count], cells: count - 1 }
}

fn runs(count: usize) -> Line {
    Line { text: vec![[b'a']; count - 1].join(&b' '), cells: 1 }
}

fn turns(count: usize) -> Line {
    Line { text: b"a|".iter().copied().cycle().take(count - 1).collect(), cells: count / 2 }
}

impl Line {
    /// The line over one value.
    pub fn over_one(&self) -> Vec<u8> {
        [&self.text[..], b"\n:-"].concat()
    }

    /// The line over as many values as it has cells.
    pub fn over_all(&self) -> Vec<u8> {
        [&self.text[..], b"\n|", &b"-|".repeat(self.cells)].concat()
    }
}
