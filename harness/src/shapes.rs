//! Sheets of any size: pool sheets as people write them, and the worst shapes for a reader.

use crate::kept::random::Random;

/// A shape: its name, what it is, and the sheet of a size.
pub struct Shape {
    pub name: &'static str,
    pub about: &'static str,
    pub make: fn(usize) -> Vec<u8>,
}

/// The kept sheets, one after the other; the first begins with a byte order mark.
const KEPT: [&str; 3] = [
    include_str!("../../sheets/mail.md"),
    include_str!("../../sheets/checkout.md"),
    include_str!("../../sheets/images.md"),
];

/// Shapes of pool sheets; the first is the typical one.
pub const TYPICAL: [Shape; 4] = [
    Shape { name: "typical", about: "headings, prose, notes, tables of 5 to 8 columns, most padded", make: typical },
    Shape { name: "typical-crlf", about: "the same with CRLF", make: typical_crlf },
    Shape { name: "kept", about: "the sheets of the folder `sheets` over and over", make: kept },
    Shape { name: "prose", about: "prose and headings without a table", make: prose },
];

/// The worst shapes.
pub const WORST: [Shape; 30] = [
    Shape { name: "pipes", about: "`|` only", make: |size| fill("|", size) },
    Shape { name: "cells", about: "`a|` over and over, one line", make: |size| fill("a|", size) },
    Shape { name: "word", about: "`a` only", make: |size| fill("a", size) },
    Shape { name: "backslashes", about: "`\\` only", make: |size| fill("\\", size) },
    Shape { name: "tabs", about: "tabs only", make: |size| fill("\t", size) },
    Shape { name: "spaces", about: "spaces only", make: |size| fill(" ", size) },
    Shape { name: "hyphens", about: "`-` only", make: |size| fill("-", size) },
    Shape { name: "alternating", about: "`|-` over and over, one line", make: |size| fill("|-", size) },
    Shape { name: "line-feeds", about: "line feeds only", make: |size| fill("\n", size) },
    Shape { name: "a-lines", about: "lines `a`", make: |size| fill("a\n", size) },
    Shape { name: "pipe-lines", about: "lines `|`", make: |size| fill("|\n", size) },
    Shape { name: "failed-heads", about: "lines `a|b`: each a head, none with a delimiter row", make: failed_heads },
    Shape { name: "failed-values", about: "`a`, `-` over and over: no colon, no divider", make: failed_values },
    Shape { name: "failed-counts", about: "`a|b`, `-|-|-` over and over: too many values", make: failed_counts },
    Shape {
        name: "failed-long",
        about: "two long lines `a|..`, `-|..`, the second with one wrong byte",
        make: failed_long,
    },
    Shape {
        name: "tables",
        about: "the smallest tables, a blank line between them",
        make: |size| fill("a\n:-\n\n", size),
    },
    Shape { name: "tables-crlf", about: "the same with CRLF", make: |size| fill("a\r\n:-\r\n\r\n", size) },
    Shape { name: "columns", about: "one table of very many columns and no row", make: columns },
    Shape { name: "wide-rows", about: "one table of very many columns and one row as wide", make: wide_rows },
    Shape { name: "byte-rows", about: "one table with rows of one byte", make: |size| headed("a\n:-\n", "a\n", size) },
    Shape { name: "byte-rows-crlf", about: "the same with CRLF", make: |size| headed("a\r\n:-\r\n", "a\r\n", size) },
    Shape {
        name: "remarks",
        about: "the smallest tables, a remark between them",
        make: |size| fill("a\n:-\n>\n", size),
    },
    Shape {
        name: "quote-rows",
        about: "one table with rows `>c` behind 4 spaces: no remarks",
        make: |size| headed("a\n:-\n", "    >c\n", size),
    },
    Shape { name: "quote-rows-tab", about: "the same behind a tab", make: |size| headed("a\n:-\n", "\t>c\n", size) },
    Shape { name: "pipe-row", about: "one table with one row of `|`", make: |size| headed("a\n:-\n", "|", size) },
    Shape { name: "pipe-rows", about: "one table with rows `|`", make: |size| headed("a\n:-\n", "|\n", size) },
    Shape { name: "cell-row", about: "one table with one row of `a|`", make: |size| headed("a\n:-\n", "a|", size) },
    Shape {
        name: "spaced-row",
        about: "one table with one row of ` a |`",
        make: |size| headed("a\n:-\n", " a |", size),
    },
    Shape { name: "escapes", about: "one table with one row of `\\|`", make: |size| headed("a\n:-\n", "\\|", size) },
    Shape { name: "random", about: "random bytes of `a`, `|`, `-`, `:`, `\\`, space, line feed, tab", make: random },
];

/// All shapes, the typical first.
pub fn all() -> impl Iterator<Item = &'static Shape> {
    TYPICAL.iter().chain(&WORST)
}

/// A text over and over, cut off at the size.
fn fill(text: &str, size: usize) -> Vec<u8> {
    text.bytes().cycle().take(size).collect()
}

/// One text, then another over and over, cut off at the size.
fn headed(head: &str, rest: &str, size: usize) -> Vec<u8> {
    head.bytes().chain(rest.bytes().cycle()).take(size).collect()
}

fn kept(size: usize) -> Vec<u8> {
    fill(&KEPT.concat(), size)
}

fn failed_heads(size: usize) -> Vec<u8> {
    fill("a|b\n", size)
}

fn failed_values(size: usize) -> Vec<u8> {
    fill("a\n-\n", size)
}

fn failed_counts(size: usize) -> Vec<u8> {
    fill("a|b\n-|-|-\n", size)
}

/// A head line and a delimiter row of half the size each; the last byte makes it no delimiter row.
fn failed_long(size: usize) -> Vec<u8> {
    let half = size.saturating_sub(2) / 2;
    [fill("a|", half), b"\n".to_vec(), fill("-|", half), b"a".to_vec()].concat()
}

/// A head line and a delimiter row, as many columns as the size holds.
fn columns(size: usize) -> Vec<u8> {
    let count = size.saturating_sub(1) / 4;
    [fill("a|", 2 * count), b"\n".to_vec(), fill("-|", 2 * count)].concat()
}

/// The same with one body row.
fn wide_rows(size: usize) -> Vec<u8> {
    let count = size.saturating_sub(2) / 6;
    [fill("a|", 2 * count), b"\n".to_vec(), fill("-|", 2 * count), b"\n".to_vec(), fill("a|", 2 * count)].concat()
}

fn random(size: usize) -> Vec<u8> {
    let mut random = Random::new(64);
    (0..size).map(|_| *random.pick(b"a|-:\\ \n\t")).collect()
}

const WORDS: [&str; 24] = [
    "the", "pool", "server", "desk", "of", "shop", "stands", "in", "second", "hall", "and", "takes", "over", "when",
    "a", "whole", "rack", "is", "off", "tell", "first", "then", "change", "state",
];

const COLUMNS: [(&str, &str, usize); 8] = [
    ("server", ":", 10),
    ("address", ":", 12),
    ("state", "c", 7),
    ("weight", "r", 6),
    ("port", "r", 5),
    ("rack", "", 6),
    ("since", "", 10),
    ("remark", "", 18),
];

/// One sentence of prose.
fn sentence(random: &mut Random) -> String {
    let words: Vec<&str> = (0..6 + random.below(9)).map(|_| *random.pick(&WORDS)).collect();
    format!("{}.", words.join(" "))
}

/// A paragraph of one to three lines.
fn paragraph(random: &mut Random) -> String {
    (0..1 + random.below(3)).map(|_| sentence(random) + "\n").collect::<String>() + "\n"
}

/// A cell's text for a column.
fn cell(random: &mut Random, column: usize) -> String {
    match column {
        0 => format!("web-{:02}", random.below(100)),
        1 => format!("10.{}.{}.{}", 20 + random.below(9), random.below(4), 10 + random.below(240)),
        2 => random.text(&["up", "up", "up", "down", "drain"]).to_string(),
        3 => random.text(&["1.00", "1.00", "0.50", "0.25", "0"]).to_string(),
        4 => random.text(&["80", "443", "8080", "8443"]).to_string(),
        5 => format!("R{}-{}", random.below(30), random.below(9)),
        6 => format!("2026-{:02}-{:02}", 1 + random.below(12), 1 + random.below(28)),
        _ => random.text(&["", "", "", "spare", "since Monday", "see desk", "name a\\|b"]).to_string(),
    }
}

/// One line of a padded table.
fn padded(cells: &[String]) -> String {
    let fields = cells.iter().zip(COLUMNS).map(|(cell, (_, align, width))| match align {
        "r" => format!(" {cell:>width$} |"),
        _ => format!(" {cell:<width$} |"),
    });
    format!("|{}\n", fields.collect::<String>())
}

/// A delimiter value as wide as its column.
fn value((_, align, width): (&str, &str, usize), wide: bool) -> String {
    let hyphens = "-".repeat(if wide { width } else { 3 });
    match align {
        ":" => format!(":{hyphens}-"),
        "c" => format!(":{hyphens}:"),
        "r" => format!("-{hyphens}:"),
        _ => format!("-{hyphens}-"),
    }
}

/// A table of 5 to 8 columns, padded and framed, or as short as can be.
fn table(random: &mut Random) -> String {
    let columns = 5 + random.below(4) as usize;
    let is_padded = random.percent(80);
    let heads: Vec<String> = COLUMNS[..columns].iter().map(|(name, ..)| name.to_string()).collect();
    let values: Vec<String> = COLUMNS[..columns].iter().map(|&column| value(column, is_padded)).collect();
    let line = |cells: &[String]| if is_padded { padded(cells) } else { cells.join(" | ") + "\n" };
    let delimiters = if is_padded { format!("|{}|\n", values.join("|")) } else { values.join("|") + "\n" };
    let mut text = line(&heads) + &delimiters;
    for _ in 0..6 + random.below(20) {
        let cells: Vec<String> = (0..columns).map(|column| cell(random, column)).collect();
        text += &line(&cells);
    }
    text + "\n"
}

/// A list of notes.
fn notes(random: &mut Random) -> String {
    (0..2 + random.below(4)).map(|_| format!("- {}\n", sentence(random))).collect::<String>() + "\n"
}

/// Parts drawn until the size is reached, then cut off there.
fn drawn(size: usize, part: fn(&mut Random) -> String) -> Vec<u8> {
    let mut random = Random::new(16);
    let mut text = String::new();
    while text.len() < size {
        text += &part(&mut random);
    }
    text.truncate(size);
    text.into_bytes()
}

/// A heading with prose and one or two tables below, at times with notes.
fn section(random: &mut Random) -> String {
    let mut text = format!("## Pool {}\n\n{}{}", random.pick(&WORDS), paragraph(random), table(random));
    if random.percent(40) {
        text += &paragraph(random);
        text += &table(random);
    }
    if random.percent(40) {
        text += &notes(random);
    }
    text
}

fn typical(size: usize) -> Vec<u8> {
    drawn(size, section)
}

fn typical_crlf(size: usize) -> Vec<u8> {
    drawn(size, |random| section(random).replace('\n', "\r\n"))
}

fn prose(size: usize) -> Vec<u8> {
    drawn(size, |random| format!("## {}\n\n{}{}", random.pick(&WORDS), paragraph(random), paragraph(random)))
}
