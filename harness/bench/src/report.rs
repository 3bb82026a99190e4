//! The figures as Markdown tables.

use crate::measure::{exponent, Figures};
use harness::shapes::Shape;

/// What was measured on one sheet, in nanoseconds a byte.
pub struct Measured {
    pub shape: &'static Shape,
    pub size: usize,
    pub raw: usize,
    pub results: usize,
    /// The crate's reading alone, unless every line is blank, so that it gets nothing to read.
    pub reference: Option<Figures>,
    /// The crate's reading, resolving and alignments, on the typical shape only.
    pub whole: Option<Figures>,
    /// Our sheet call, with as many slots as needed.
    pub ours: Figures,
    /// Our sheet call, with a quarter more.
    pub spare: Figures,
    /// Our sheet call on the typical sheet of this size, in turn with the others.
    pub typical: Figures,
}

/// The name of a table column for a size.
fn kilobytes(size: usize) -> String {
    if size.is_multiple_of(1024) {
        format!("{} KB", size / 1024)
    } else {
        format!("{size} B")
    }
}

/// A row of a Markdown table.
pub fn line(cells: &[String]) -> String {
    format!("| {} |\n", cells.join(" | "))
}

/// The head and the delimiter row: the first columns are texts, the others numbers.
pub fn heading(names: &[String], texts: usize) -> String {
    let values: Vec<&str> = (0..names.len()).map(|place| if place < texts { "---" } else { "---:" }).collect();
    format!("{}|{}|\n", line(names), values.join("|"))
}

fn strings(names: &[&str]) -> Vec<String> {
    names.iter().map(|name| name.to_string()).collect()
}

fn number(value: f64) -> String {
    format!("{value:.2}")
}

/// A number, or a hyphen where there is none.
fn or_none(value: Option<f64>) -> String {
    value.map_or("-".to_string(), number)
}

/// Bars are escaped, as in any table.
fn escaped(text: &str) -> String {
    text.replace('|', "\\|")
}

/// All shapes at one size.
pub fn at_size(all: &[Measured], size: usize) -> String {
    let here: Vec<&Measured> = all.iter().filter(|measured| measured.size == size).collect();
    let names = ["shape", "raw events a byte", "results a byte", "crate least", "crate median", "ours least"];
    let more = ["ours median", "ours, spare slots", "ours : crate", "by medians", "ours : typical"];
    let mut text = heading(&strings(&[&names[..], &more[..]].concat()), 1);
    for measured in &here {
        let Measured { shape, reference, ours, spare, typical, .. } = measured;
        let mut cells = vec![shape.name.to_string()];
        cells.extend([measured.raw, measured.results].map(|count| number(count as f64 / size as f64)));
        cells.extend([reference.map(|figures| figures.least), reference.map(|figures| figures.median)].map(or_none));
        cells.extend([ours.least, ours.median, spare.least].map(number));
        cells.push(or_none(reference.map(|figures| ours.least / figures.least)));
        cells.push(or_none(reference.map(|figures| ours.median / figures.median)));
        cells.push(number(ours.least / typical.least));
        text += &line(&cells);
    }
    text
}

/// A figure of what was measured, if there is one.
pub type Pick = fn(&Measured) -> Option<f64>;

/// The least times of one reader by size, with the growth.
pub fn by_size(all: &[Measured], pick: Pick) -> String {
    let sizes = sizes_of(all);
    let mut names = vec!["shape".to_string()];
    names.extend(sizes.iter().map(|&size| kilobytes(size)));
    names.extend(strings(&["64 KB : 8 KB", "exponent"]));
    let mut text = heading(&names, 1);
    let is_measured = |shape: &&Shape| all.iter().any(|found| found.shape.name == shape.name && pick(found).is_some());
    for shape in shapes_of(all).into_iter().filter(is_measured) {
        let mut cells = vec![shape.name.to_string()];
        cells.extend(all.iter().filter(|found| found.shape.name == shape.name).map(|found| or_none(pick(found))));
        let growth = growth(all, shape.name, pick);
        cells.extend([or_none(growth.ratio), or_none(growth.exponent)]);
        text += &line(&cells);
    }
    text
}

/// How the time grows with the size, where it was measured.
pub struct Growth {
    /// The time a byte at 64 KB against 8 KB.
    pub ratio: Option<f64>,
    pub exponent: Option<f64>,
}

/// The growth of a shape's times.
pub fn growth(all: &[Measured], name: &str, pick: Pick) -> Growth {
    let of_shape = all.iter().filter(|found| found.shape.name == name);
    let each: Vec<(usize, f64)> = of_shape.filter_map(|found| Some((found.size, pick(found)?))).collect();
    let at = |wanted: usize| each.iter().find(|(size, _)| *size == wanted).map(|(_, time)| time);
    let ratio = at(65_536).zip(at(8_192)).map(|(large, small)| large / small);
    let whole: Vec<(usize, f64)> = each.iter().map(|&(size, time)| (size, time * size as f64)).collect();
    Growth { ratio, exponent: (whole.len() > 1).then(|| exponent(&whole)) }
}

/// The sizes measured, rising.
fn sizes_of(all: &[Measured]) -> Vec<usize> {
    let mut sizes: Vec<usize> = all.iter().map(|measured| measured.size).collect();
    sizes.sort_unstable();
    sizes.dedup();
    sizes
}

/// The shapes measured, in order.
fn shapes_of(all: &[Measured]) -> Vec<&'static Shape> {
    let mut shapes: Vec<&Shape> = all.iter().map(|measured| measured.shape).collect();
    shapes.dedup_by_key(|shape| shape.name);
    shapes
}

/// What the shapes are.
pub fn legend(all: &[Measured]) -> String {
    let lines = shapes_of(all).into_iter().map(|shape| line(&strings(&[shape.name, &escaped(shape.about)])));
    heading(&strings(&["shape", "what"]), 2) + &lines.collect::<String>()
}

/// The shape with the greatest value among those that have one, and that value.
fn greatest(some: &[&Measured], value: impl Fn(&Measured) -> Option<f64>) -> String {
    let values = some.iter().filter_map(|measured| Some((measured.shape.name, value(measured)?)));
    let found = values.max_by(|one, other| one.1.total_cmp(&other.1));
    found.map_or("-".to_string(), |(name, value)| format!("{name}, {value:.2}"))
}

/// The figures that matter most, one a line.
pub fn summary(all: &[Measured]) -> String {
    let largest = *sizes_of(all).last().expect("something was measured");
    let here: Vec<&Measured> = all.iter().filter(|measured| measured.size == largest).collect();
    let typical = here[0];
    let ours: Pick = |measured| Some(measured.ours.least);
    let to_crate = |measured: &Measured| Some(measured.ours.least / measured.reference?.least);
    let medians = |measured: &Measured| Some(measured.ours.median / measured.reference?.median);
    let name = format!("{}, {}", typical.shape.name, kilobytes(largest));
    let lines = [
        format!("{name}, ours: {} nanoseconds a byte", number(typical.ours.least)),
        format!("{name}, the crate's reading alone: {}", or_none(typical.reference.map(|figures| figures.least))),
        format!("{name}, ratio: {}, by medians {}", or_none(to_crate(typical)), or_none(medians(typical))),
        format!("{name}, exponent: {}", or_none(growth(all, typical.shape.name, ours).exponent)),
        format!("greatest ratio to typical: {}", greatest(&here, |found| Some(found.ours.least / found.typical.least))),
        format!("greatest ratio to the crate's reading alone: {}", greatest(&here, to_crate)),
        format!("greatest exponent: {}", greatest(&here, |found| growth(all, found.shape.name, ours).exponent)),
        format!("greatest 64 KB : 8 KB: {}", greatest(&here, |found| growth(all, found.shape.name, ours).ratio)),
    ];
    lines.iter().map(|line| format!("- {line}\n")).collect()
}
