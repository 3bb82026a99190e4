//! Requests for the sheet call with a table of kinds (request U9).

use super::random::Random;
use super::{sheet_cases as cases, Kept, PLENTY};
use crate::calls::{self, SheetSlots};
use crate::kinds::{self, BUILT_IN, ENTRIES, PUNCTUATION};
use crate::print;

/// A byte and its new kind.
pub type Change = (u8, u8);

/// Tables that are refused, by rising number: a label, the number, how many entries, and what is changed in the built-in table.
pub const REFUSED: [(&str, u8, u64, &[Change]); 94] = [
    ("none", 20, 0, &[]),
    ("one", 20, 1, &[]),
    ("onechanged", 20, 1, &[(0, 3)]),
    ("short", 20, 255, &[]),
    ("shortsemicolon", 20, 255, &[(b';', 3), (b'|', 0)]),
    ("long", 20, 257, &[]),
    ("longsemicolon", 20, 257, &[(b';', 3), (b'|', 0)]),
    ("longest", 20, 300, &[]),
    ("sevenfirst", 20, 256, &[(0, 7)]),
    ("seventab", 20, 256, &[(9, 7)]),
    ("sevenreturn", 20, 256, &[(13, 7)]),
    ("sevenspace", 20, 256, &[(b' ', 7)]),
    ("sevencolon", 20, 256, &[(b':', 7)]),
    ("sevenremark", 20, 256, &[(b'>', 7)]),
    ("sevenletter", 20, 256, &[(b'a', 7)]),
    ("sevenpipe", 20, 256, &[(b'|', 7)]),
    ("sevenlast", 20, 256, &[(255, 7)]),
    ("eight", 20, 256, &[(b'a', 8)]),
    ("masked", 20, 256, &[(b';', 131), (b'|', 0)]),
    ("negative", 20, 256, &[(b';', 128)]),
    ("greatestfirst", 20, 256, &[(0, 255)]),
    ("greatestfeed", 20, 256, &[(10, 255)]),
    ("greatesthyphen", 20, 256, &[(b'-', 255)]),
    ("greatestremark", 20, 256, &[(b'>', 255)]),
    ("greatestslash", 20, 256, &[(b'\\', 255)]),
    ("greatestlast", 20, 256, &[(255, 255)]),
    ("allthree", 20, 256, &[(b'a', 7), (9, 0), (b'|', 0)]),
    ("allthreelast", 20, 256, &[(9, 0), (b'|', 0), (255, 7)]),
    ("allthreeshort", 20, 255, &[(11, 1), (b'>', 3)]),
    ("allthreelong", 20, 257, &[(13, 0), (b';', 3)]),
    ("firstandthird", 20, 256, &[(b'|', 0), (b'z', 9)]),
    ("zerotab", 21, 256, &[(9, 0)]),
    ("feedtab", 21, 256, &[(9, 2)]),
    ("pipetab", 21, 256, &[(9, 3)]),
    ("slashtab", 21, 256, &[(9, 4)]),
    ("hyphentab", 21, 256, &[(9, 5)]),
    ("colontab", 21, 256, &[(9, 6)]),
    ("zerospace", 21, 256, &[(b' ', 0)]),
    ("feedspace", 21, 256, &[(b' ', 2)]),
    ("pipespace", 21, 256, &[(b' ', 3)]),
    ("slashspace", 21, 256, &[(b' ', 4)]),
    ("hyphenspace", 21, 256, &[(b' ', 5)]),
    ("colonspace", 21, 256, &[(b' ', 6)]),
    ("zerofeed", 21, 256, &[(10, 0)]),
    ("spacefeed", 21, 256, &[(10, 1)]),
    ("pipefeed", 21, 256, &[(10, 3)]),
    ("slashfeed", 21, 256, &[(10, 4)]),
    ("hyphenfeed", 21, 256, &[(10, 5)]),
    ("colonfeed", 21, 256, &[(10, 6)]),
    ("zeroreturn", 21, 256, &[(13, 0)]),
    ("spacereturn", 21, 256, &[(13, 1)]),
    ("pipereturn", 21, 256, &[(13, 3)]),
    ("slashreturn", 21, 256, &[(13, 4)]),
    ("hyphenreturn", 21, 256, &[(13, 5)]),
    ("colonreturn", 21, 256, &[(13, 6)]),
    ("spacefirst", 21, 256, &[(0, 1)]),
    ("spacevertical", 21, 256, &[(11, 1)]),
    ("spaceremark", 21, 256, &[(b'>', 1)]),
    ("spaceletter", 21, 256, &[(b'a', 1)]),
    ("spacepipe", 21, 256, &[(b'|', 1)]),
    ("spacehard", 21, 256, &[(160, 1)]),
    ("spacelast", 21, 256, &[(255, 1)]),
    ("feedfirst", 21, 256, &[(0, 2)]),
    ("feedform", 21, 256, &[(12, 2)]),
    ("feedremark", 21, 256, &[(b'>', 2)]),
    ("feedletter", 21, 256, &[(b'a', 2)]),
    ("feedpipe", 21, 256, &[(b'|', 2)]),
    ("feedlast", 21, 256, &[(255, 2)]),
    ("turned", 21, 256, &[(9, 2), (10, 1)]),
    ("movedtab", 21, 256, &[(9, 0), (11, 1)]),
    ("movedreturn", 21, 256, &[(13, 0), (12, 2)]),
    ("lasttwo", 21, 256, &[(9, 0), (b'|', 0)]),
    ("lasttworemark", 21, 256, &[(b'>', 3), (255, 2)]),
    ("nopipe", 22, 256, &[(b'|', 0)]),
    ("noslash", 22, 256, &[(b'\\', 0)]),
    ("nohyphen", 22, 256, &[(b'-', 0)]),
    ("nocolon", 22, 256, &[(b':', 0)]),
    ("noneofall", 22, 256, &[(b'|', 0), (b'\\', 0), (b'-', 0), (b':', 0)]),
    ("twopipes", 22, 256, &[(b';', 3)]),
    ("twoslashes", 22, 256, &[(b'/', 4)]),
    ("twohyphens", 22, 256, &[(b'=', 5)]),
    ("twocolons", 22, 256, &[(b',', 6)]),
    ("pipefirst", 22, 256, &[(0, 3)]),
    ("colonlast", 22, 256, &[(255, 6)]),
    ("threehyphens", 22, 256, &[(b'=', 5), (b'_', 5)]),
    ("pipeasslash", 22, 256, &[(b'|', 4)]),
    ("colonashyphen", 22, 256, &[(b':', 5)]),
    ("movedtwice", 22, 256, &[(b'|', 0), (b';', 3), (b',', 3)]),
    ("remarkpipes", 22, 256, &[(b'>', 3)]),
    ("remarkpipe", 22, 256, &[(b'>', 3), (b'|', 0)]),
    ("remarkslashes", 22, 256, &[(b'>', 4)]),
    ("remarkslash", 22, 256, &[(b'>', 4), (b'\\', 0)]),
    ("remarkhyphen", 22, 256, &[(b'>', 5), (b'-', 0)]),
    ("remarkcolon", 22, 256, &[(b'>', 6), (b':', 0)]),
];

/// Tables that pass: a label, and what is changed in the built-in table.
pub const PASSING: [(&str, &[Change]); 22] = [
    ("builtin", &[]),
    ("samepipe", &[(b'|', 3)]),
    ("backagain", &[(b'|', 0), (b';', 3), (b';', 0), (b'|', 3)]),
    ("semicolon", &[(b';', 3), (b'|', 0)]),
    ("comma", &[(b',', 3), (b'|', 0)]),
    ("equals", &[(b'=', 5), (b'-', 0)]),
    ("slash", &[(b'/', 4), (b'\\', 0)]),
    ("point", &[(b'.', 6), (b':', 0)]),
    ("allfour", &[(b';', 3), (b'|', 0), (b'/', 4), (b'\\', 0), (b'=', 5), (b'-', 0), (b',', 6), (b':', 0)]),
    ("letters", &[(b'x', 3), (b'|', 0), (b'e', 4), (b'\\', 0), (b'm', 5), (b'-', 0), (b'k', 6), (b':', 0)]),
    ("pipecolon", &[(b'|', 6), (b':', 3)]),
    ("pipeslash", &[(b'|', 4), (b'\\', 3)]),
    ("slashhyphen", &[(b'\\', 5), (b'-', 4)]),
    ("round", &[(b'|', 4), (b'\\', 5), (b'-', 6), (b':', 3)]),
    ("chain", &[(b'|', 5), (b'-', 6), (b':', 0), (b';', 3)]),
    ("zeropipe", &[(0, 3), (b'|', 0)]),
    ("zerohyphen", &[(0, 5), (b'-', 0)]),
    ("beside", &[(8, 3), (b'|', 0), (11, 4), (b'\\', 0), (12, 5), (b'-', 0), (14, 6), (b':', 0)]),
    ("quotes", &[(b'=', 3), (b'|', 0), (b'?', 4), (b'\\', 0), (b'<', 5), (b'-', 0), (b'!', 6), (b':', 0)]),
    ("high", &[(255, 3), (b'|', 0), (128, 4), (b'\\', 0), (254, 5), (b'-', 0), (173, 6), (b':', 0)]),
    ("mark", &[(0xef, 3), (b'|', 0), (0xbb, 5), (b'-', 0), (0xbf, 6), (b':', 0)]),
    ("markturned", &[(0xbf, 3), (b'|', 0), (0xef, 4), (b'\\', 0), (0xbb, 6), (b':', 0)]),
];

/// Sheets in built-in bytes, which each of these tables is given in its own.
pub const SHEETS: [cases::Case; 7] = [
    ("table", "|a|b|\n|:-|-:|\n|c|d|e|\n"),
    ("escapes", "a\\|b|c\n:-:|-\n\\\\|d\\\\\\|\\a"),
    ("prose", "p: q - r\n\na|b\n-|-\nc\n\ns|t\nu\n:-"),
    ("remarks", "> a|b\nc\n:-\n d \n   >e\nf"),
    ("marked", "\u{feff}a|b\r\n-|:-\r\nc\t|\td"),
    ("marktwice", "\u{feff}\u{feff}|b\n-|-\n\u{feff}"),
    ("indented", "    a\n  -|\n\t|b"),
];

/// A label of `PASSING`, and a sheet as it stands.
pub const WRITTEN: [(&str, &[u8]); 34] = [
    ("semicolon", b"server;state\n-;-\nweb|1;up\nweb|2"),
    ("semicolon", b"a|b\n-|-\nc"),
    ("semicolon", b"a\n-|"),
    ("semicolon", b"a\n-;"),
    ("semicolon", b";\n;-;"),
    ("semicolon", b"a\\;b\n:-"),
    ("semicolon", b"a\\\\;b\n-;-\n\\|;\\;"),
    ("semicolon", b"a;b\n-;-\n> c;d\ne;f\n-;-"),
    ("semicolon", b"a;b\r\n-;-\r\n\r\nc;d\r-;-\r \t\re"),
    ("semicolon", b"\xef\xbb\xbfa;b\n-;-\nc"),
    ("comma", b"a,b;c\n-,-\n,\n,,"),
    ("equals", b"a|b\n=|:=\n-|="),
    ("equals", b"a|b\n-|-"),
    ("equals", b"a\n=\n=|"),
    ("slash", b"a/|b\n:-"),
    ("slash", b"a\\|b\n-|-\n\\|c/|d"),
    ("slash", b"a//|b\n-|-\n///|"),
    ("point", b"a|b\n.-|-.\n:-|:"),
    ("point", b"a\n:-"),
    ("allfour", b"a;b;c\n=;,=;=,\nd/;e|f-g\\;h:i"),
    ("allfour", b"a|b\n:-|-"),
    ("letters", b"axb\nkmxm\ncexdx"),
    ("letters", b"mkm\nkmk\nxx"),
    ("pipecolon", b"a:b\n|-:-|\nc|d:e"),
    ("pipeslash", b"a\\b|\\c\n-\\-\n|\\||\\d"),
    ("round", b"a:b\n-\\:\\-\n|:c:d"),
    ("zeropipe", b"a\0b\n-\0-\nc|d\0\0"),
    ("zerohyphen", b"a|b\n\0|\0\0\0\n-"),
    ("beside", b"a\x08b\n\x0c\x08\x0e\x0c\n\tc\x0b\x08d"),
    ("high", b"\x80\xff\xffa\n\xfe\xad\n\x80\x80\xff|"),
    ("mark", b"\xef\xbb\xbfa\n\xbf\xbb\nb\xefc"),
    ("mark", b"\xef\xbb\xbf\xef\xbb\xbf\n\xef\xbb\xbf"),
    ("mark", b"a\xefb\n\xbb\xef\xbb\n\xef\xbb\xbf"),
    ("markturned", b"\xef\xbb\xbf\xef\xbfa\n\xbb-"),
];

/// Changes as a request has them.
fn pairs(changes: &[Change]) -> Vec<u8> {
    changes.iter().flat_map(|&(byte, kind)| [byte, kind]).collect()
}

/// The table of `PASSING` with a label.
pub fn passing_of(label: &str) -> Vec<u8> {
    let (_, changes) = PASSING.iter().find(|(found, _)| *found == label).expect("a label of these");
    kinds::table(ENTRIES as u64, &pairs(changes)).expect("each byte has an entry")
}

fn request(table: &str, sheet: &[u8], code_indented: bool, [raw, results, alignments]: [u64; 3]) -> String {
    format!("kinds {table} {} {raw} {results} {alignments} {}", u8::from(code_indented), print::bytes(sheet))
}

/// A table that passes, with as many slots as needed and one too few of each kind; where none are needed, with a few.
fn add(kept: &mut Kept, table: &str, kinds: &[u8], sheet: &[u8], code_indented: bool) {
    assert!(sheet.len() <= 1024, "sheets stay short");
    let plenty = SheetSlots { raw: PLENTY, results: PLENTY, alignments: PLENTY };
    let read = calls::sheet_with(kinds, sheet, code_indented, &plenty).expect("the table passes");
    let [raw, results, alignments] = [read.raw.len(), read.results.len(), read.alignments.len()].map(|n| n as u64);
    assert!(raw.max(results).max(alignments) <= 1024, "slots stay few");
    let mut ask = |slots| kept.add(request(table, sheet, code_indented, slots));
    if raw == 0 {
        return ask([2, 1, 3]);
    }
    ask([raw, results, alignments]);
    ask([raw - 1, results, alignments]);
    ask([raw, results - 1, alignments]);
    ask([raw, results, alignments - 1]);
}

pub fn kept() -> Kept {
    let mut kept = Kept::new("kinds");
    add_refused(&mut kept);
    add_passing(&mut kept);
    add_written(&mut kept);
    add_random(&mut kept);
    kept
}

/// Each table that is refused, sheets and slots in turn; of every eighth also with slots enough and with none.
fn add_refused(kept: &mut Kept) {
    let sheets = ["a\n:-\nb", "a;b\n-;-", "", "> a"];
    for (number, (_, _, entries, changes)) in REFUSED.iter().enumerate() {
        let table = format!("{entries} {}", print::bytes(&pairs(changes)));
        let slots = [[2, 1, 3], [40, 60, 4], [0, 0, 0]];
        kept.add(request(&table, sheets[number % 4].as_bytes(), number % 2 == 0, slots[number % 3]));
        for slots in slots.into_iter().skip(1).filter(|_| number % 8 == 0) {
            kept.add(request(&table, b"a\n:-\nb", true, slots));
        }
    }
}

/// Each table that passes, with a sheet in its own bytes, and with one in built-in ones.
fn add_passing(kept: &mut Kept) {
    for (number, (label, changes)) in PASSING.iter().enumerate() {
        let table = format!("{ENTRIES} {}", print::bytes(&pairs(changes)));
        let kinds = passing_of(label);
        let (_, text) = SHEETS[(number + 5) % SHEETS.len()];
        add(kept, &table, &kinds, &kinds::written(text.as_bytes(), &kinds), number % 3 > 0);
        add(kept, &table, &kinds, b"\\a|b\n:-|-:\nc", true);
    }
}

/// Each sheet as it stands.
fn add_written(kept: &mut Kept) {
    for (number, (label, sheet)) in WRITTEN.iter().enumerate() {
        let kinds = passing_of(label);
        add(kept, &print::kinds(&kinds), &kinds, sheet, number % 2 == 0);
    }
}

/// Tables and sheets drawn at random.
fn add_random(kept: &mut Kept) {
    let mut random = Random::new(10);
    for _ in 0..10 {
        let kinds = passing(&mut random);
        let sheet = kinds::written(&cases::tabular(&mut random, 4), &kinds);
        let code_indented = random.percent(70);
        add(kept, &print::kinds(&kinds), &kinds, &sheet, code_indented);
    }
    for _ in 0..12 {
        let kinds = any(&mut random);
        let sheet = cases::tabular(&mut random, 3);
        let slots = [9, 9, 3].map(|limit| random.below(limit));
        kept.add(request(&print::kinds(&kinds), &sheet, random.percent(70), slots));
    }
}

/// A byte that may have one of the kinds 3 to 6.
fn free_byte(random: &mut Random) -> u8 {
    let byte = match random.below(4) {
        0 => random.below(256) as u8,
        1 => *random.pick(&PUNCTUATION),
        _ => *random.pick(b";,=/ab\0\xff\xef\xbb\xbf"),
    };
    if matches!(byte, 9 | 10 | 13 | 32 | 62) {
        return free_byte(random);
    }
    byte
}

/// A table that passes.
pub fn passing(random: &mut Random) -> Vec<u8> {
    let mut kinds = BUILT_IN.to_vec();
    for built_in in PUNCTUATION {
        if random.percent(60) {
            kinds.swap(built_in.into(), free_byte(random).into());
        }
    }
    kinds
}

/// A table that passed before some entries were changed or exchanged, or another number of them was taken.
pub fn any(random: &mut Random) -> Vec<u8> {
    let mut kinds = passing(random);
    for _ in 0..1 + random.below(3) {
        let [one, other] = [(); 2].map(|()| usize::from(any_byte(random)));
        if random.percent(35) {
            kinds.swap(one, other);
        } else {
            kinds[one] = if random.percent(95) { random.below(8) } else { random.below(256) } as u8;
        }
    }
    if random.percent(15) {
        let entries = if random.percent(50) { 255 + 2 * random.below(2) } else { random.below(301) };
        kinds.resize(entries as usize, 0);
    }
    kinds
}

/// Any byte, often one whose kind no table may change, or one that may have any of the kinds 3 to 6.
fn any_byte(random: &mut Random) -> u8 {
    match random.below(3) {
        0 => *random.pick(&[9, 10, 13, 32, 62]),
        1 => free_byte(random),
        _ => random.below(256) as u8,
    }
}
