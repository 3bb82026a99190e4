//! Reads request lines from standard input and writes one answer line for each (README.md has the protocol).

use harness::{guard, protocol};
use std::io::{self, BufRead, Write};

fn main() -> io::Result<()> {
    guard::silence();
    let mut input = io::stdin().lock();
    let mut output = io::BufWriter::new(io::stdout().lock());
    let mut line = Vec::new();
    while input.read_until(b'\n', &mut line)? > 0 {
        if line.last() == Some(&b'\n') {
            line.pop();
        }
        // Bytes that are no text make an unreadable request.
        let answer = std::str::from_utf8(&line).map_or("?".to_string(), protocol::answer);
        writeln!(output, "{answer}")?;
        line.clear();
    }
    output.flush()
}
