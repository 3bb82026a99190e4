//! Sheets drawn at random, in many styles.

use harness::bom::BOM;
use harness::counts;
use harness::kept::random::Random;
use harness::kept::sheet_cases as cases;
use harness::lines::lines;
use harness::shapes;

/// Bytes to draw from, as often as they stand there.
const ALPHABETS: [&[u8]; 9] = [
    b"aab||||--:\\ \t\n\n\r",
    b"a|-:\n",
    b"a|-\n\n",
    b"|-: \n",
    b"ab |\\\\\\\n-:-",
    b"a|-:\r\n",
    b"aaaaaaaaaaaaaaaa|\n",
    b"\t a|-:\n\t",
    b"a>:-> \n\n|\t",
];

/// A length: mostly short, now and then up to the longest sheet and one more byte.
fn length(random: &mut Random) -> usize {
    let limit = match random.below(1000) {
        0..=799 => 40,
        800..=969 => 400,
        970..=997 => 4_000,
        _ => 65_538,
    };
    random.below(limit) as usize
}

/// Bytes of an alphabet, or any bytes.
fn scattered(random: &mut Random) -> Vec<u8> {
    let length = length(random);
    if random.percent(8) {
        return (0..length).map(|_| random.below(256) as u8).collect();
    }
    let alphabet = *random.pick(&ALPHABETS);
    (0..length).map(|_| *random.pick(alphabet)).collect()
}

/// The lines of one of the shapes: a stretch from anywhere in a sheet of that shape.
fn stretch(random: &mut Random) -> Vec<u8> {
    let shapes: Vec<_> = shapes::all().collect();
    let place = if random.percent(70) { random.below(3) } else { random.below(shapes.len() as u64) } as usize;
    let length = if random.percent(97) { 60 + random.below(700) as usize } else { length(random) };
    let from = random.below(2_000) as usize;
    let sheet = (shapes[place].make)(from + length);
    sheet[from.min(sheet.len())..].to_vec()
}

/// A sheet in any style, at times damaged, at times with other line ends.
pub fn any(random: &mut Random) -> Vec<u8> {
    let mut sheet = match random.below(10) {
        0..=2 => scattered(random),
        3 | 4 => cases::tabular(random, 6),
        5 => cases::tabular(random, 40),
        6 => cases::several(random),
        7 => by_hand(random),
        _ => stretch(random),
    };
    if random.percent(50) {
        for _ in 0..1 + random.below(4) {
            damage(random, &mut sheet);
        }
    }
    if random.percent(25) {
        add_remark(random, &mut sheet);
    }
    if random.percent(15) {
        sheet = with_line_ends(random, &sheet);
    }
    if random.percent(20) {
        add_mark(random, &mut sheet);
    }
    sheet
}

/// A sheet chosen by hand, of all kinds, one about remarks, one about byte order marks, or a long head line.
fn by_hand(random: &mut Random) -> Vec<u8> {
    match random.below(10) {
        0..=2 => random.pick(&cases::REMARKS).1.as_bytes().to_vec(),
        3 => random.pick(&cases::MARKED).1.to_vec(),
        4 => counted(random),
        _ => random.pick(&cases::by_hand()).clone(),
    }
}

/// A head line that the crate counts about a multiple of 256 times, over one value or as many as it has cells.
fn counted(random: &mut Random) -> Vec<u8> {
    let count = 255 + 256 * random.below(4) + random.below(4);
    let line = random.pick(&counts::LINES)(count as usize);
    if random.percent(50) {
        line.over_one()
    } else {
        line.over_all()
    }
}

/// A byte order mark in front, or before some line, whole or in part, once or twice.
fn add_mark(random: &mut Random, sheet: &mut Vec<u8>) {
    let starts: Vec<usize> = lines(sheet).iter().map(|line| line.start).collect();
    let start = if random.percent(80) { 0 } else { *random.pick(&starts) };
    let mark: &[u8] = match random.below(10) {
        0 => &BOM[..2],
        1 => &BOM.repeat(2),
        _ => &BOM,
    };
    sheet.splice(start..start, mark.iter().copied());
}

/// A remark, or a line that is near to one, before some line, or its mark before a line's text.
fn add_remark(random: &mut Random, sheet: &mut Vec<u8>) {
    let starts: Vec<usize> = lines(sheet).iter().map(|line| line.start).collect();
    let start = *random.pick(&starts);
    let indent = *random.pick(&cases::REMARK_INDENTS);
    let text = random.text(&[">", ">", ">", "> a", ">a|b", "->", ">\n", "> a\n", ">|\n"]);
    sheet.splice(start..start, [indent, text].concat().into_bytes());
}

/// One byte flipped, deleted or inserted, or two lines exchanged, or a stretch doubled.
fn damage(random: &mut Random, sheet: &mut Vec<u8>) {
    if sheet.is_empty() {
        return;
    }
    let place = random.below(sheet.len() as u64) as usize;
    let byte = *random.pick(b"|||--::\\\\ \t\n\n\ra\0\xff");
    match random.below(6) {
        0 => sheet[place] ^= 1 << random.below(8),
        1 => sheet[place] = byte,
        2 => drop(sheet.remove(place)),
        3 => sheet.insert(place, byte),
        4 => swap_lines(random, sheet),
        _ => {
            let end = (place + random.below(20) as usize).min(sheet.len());
            let copy = sheet[place..end].to_vec();
            sheet.splice(place..place, copy);
        }
    }
}

fn swap_lines(random: &mut Random, sheet: &mut Vec<u8>) {
    let mut lines: Vec<Vec<u8>> = sheet.split(|&byte| byte == b'\n').map(<[u8]>::to_vec).collect();
    let count = lines.len() as u64;
    lines.swap(random.below(count) as usize, random.below(count) as usize);
    *sheet = lines.join(&b'\n');
}

/// Each line feed as another line end, the same for all or any for each.
fn with_line_ends(random: &mut Random, sheet: &[u8]) -> Vec<u8> {
    let ends = [&b"\r\n"[..], b"\r", b"\n", b"\r\r\n", b"\n\r"];
    let one = *random.pick(&ends[..3]);
    let mixed = random.percent(40);
    let mut changed = vec![];
    for &byte in sheet {
        match byte {
            b'\n' if mixed => changed.extend(*random.pick(&ends)),
            b'\n' => changed.extend(one),
            _ => changed.push(byte),
        }
    }
    changed
}
