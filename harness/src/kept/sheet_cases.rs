//! Sheets chosen by hand, each with a one-word label, and sheets drawn at random.

use super::random::Random;

/// A label and a sheet.
pub type Case = (&'static str, &'static str);

/// The readings of 01's table, and its example.
pub const READINGS: [Case; 15] = [
    ("lone", "|\n|-|"),
    ("pair", "||\n|-|"),
    ("hyphen", "a\n-"),
    ("left", "a\n:-"),
    ("trailing", "a\n-|"),
    ("fewer", "a|b\n:-"),
    ("right", "a|b\n-|-:"),
    ("colon", "a\n:"),
    ("apart", "a\n- -"),
    ("three", "   a\n:-"),
    ("four", "    a\n:-"),
    ("escaped", "a\\|b\n:-:"),
    ("unescaped", "a\\\\|b\n-|-"),
    ("example", "a|b\n:-|-\nc"),
    ("empty", ""),
];

/// The table examples of the GitHub Flavored Markdown specification, 198 to 205.
pub const SPECIFICATION: [Case; 8] = [
    ("g198", "| foo | bar |\n| --- | --- |\n| baz | bim |\n"),
    ("g199", "| abc | defghi |\n:-: | -----------:\nbar | baz\n"),
    ("g200", "| f\\|oo  |\n| ------ |\n| b `\\|` az |\n| b **\\|** im |\n"),
    ("g201", "| abc | def |\n| --- | --- |\n| bar | baz |\n> bar\n"),
    ("g202", "| abc | def |\n| --- | --- |\n| bar | baz |\nbar\n\nbar\n"),
    ("g203", "| abc | def |\n| --- |\n| bar |\n"),
    ("g204", "| abc | def |\n| --- | --- |\n| bar |\n| bar | baz | boo |\n"),
    ("g205", "| abc | def |\n| --- | --- |\n"),
];

/// Heads of many forms.
pub const HEADS: [Case; 46] = [
    ("framed", "|a|\n|-|"),
    ("spaced", "| a | b |\n| - | - |\n"),
    ("unframed", "a | b\n- | -\n"),
    ("front", "|a|b\n|-|-"),
    ("behind", "a|b|\n-|-|"),
    ("mixed", "|a|b\n-|-|"),
    ("emptycell", "a||b\n-|-|-"),
    ("triple", "|||\n|-|-|"),
    ("bars", "||||\n-|-|-"),
    ("barspace", "| |\n|-|"),
    ("spacebar", " | \n|-|"),
    ("barscell", "| | |\n|-|-|"),
    ("lead", " | a\n - |\n"),
    ("toomany", "a\n-|-"),
    ("toofew", "a|b|c\n-|-"),
    ("centre", "a\n:-:"),
    ("rightone", "a\n-:"),
    ("long", "a|b\n:---|----:"),
    ("all", "a|b|c|d\n-|:-|-:|:-:"),
    ("nodash", "a\n:|"),
    ("colons", "a\n::"),
    ("doublecolon", "a\n::-"),
    ("colonpair", "a\n-::"),
    ("inside", "a\n-:-"),
    ("onlybar", "a\n|"),
    ("onlybars", "a\n||"),
    ("doublebar", "a|b\n-||-"),
    ("leadpair", "a\n||-"),
    ("tailpair", "a\n-||"),
    ("tailspace", "a\n-| |"),
    ("leadspace", "a\n| |-"),
    ("letter", "a\n-a|"),
    ("letters", "a|b\nb|-"),
    ("slash", "a|b\n-\\|-"),
    ("gap", "a\n: -"),
    ("dashgap", "a\n- :"),
    ("twovalues", "a|b\n- -|-"),
    ("spaces", "a  \n  :-  "),
    ("nosecond", "a|b\n"),
    ("nothing", "a|b"),
    ("blanksecond", "a|b\n\n-|-"),
    ("spacesecond", "a|b\n  \n-|-"),
    ("second", "a|b\nc|d\n-|-"),
    ("third", "a\na|b\nc|d\n-|-\ne"),
    ("delimiters", "-|-\n-|-\n-|-"),
    ("delimiterhead", ":-\n:-"),
];

/// Escapes: odd and even runs of backslashes.
pub const ESCAPES: [Case; 16] = [
    ("odd", "a\\|b\n:-"),
    ("oddtwo", "a\\|b\n-|-"),
    ("even", "a\\\\|b\n:-"),
    ("three", "a\\\\\\|b\n:-"),
    ("four", "a\\\\\\\\|b\n-|-"),
    ("first", "\\|\n:-"),
    ("firsttwo", "\\\\|\n-|"),
    ("last", "a|\\\n-|-\nb|\\"),
    ("lasttwo", "a|\\\\\n-|-\nb|\\\\"),
    ("space", "a\\ |b\n-|-\nc\\ |d"),
    ("tab", "a\\\t|b\n-|-\nc\\\\\t|d"),
    ("pipes", "a\\||b\n-|-\nc\\||d"),
    ("run", "\\|\\|\n:-\n\\|\\|\\\\|"),
    ("middle", "|\\|\n|-\n|\\\n|\\\\"),
    ("other", "\\a|\\-\n-|-\n\\:|\\\\\\a"),
    ("broken", "\\\\ \\|a\n:-\n\\ \\|\\ |"),
];

/// Body rows of many forms.
pub const BODIES: [Case; 30] = [
    ("one", "a|b\n-|-\nc|d"),
    ("ragged", "a|b\n-|-\nc\nc|d|e\n|"),
    ("lonebar", "a|b\n-|-\n|\n||\n|||"),
    ("barspaces", "a\n:-\n | \n| |\n | | "),
    ("emptycells", "a|b\n-|-\n||c\nc||\n|c||"),
    ("framedrow", "a\n:-\n|c|\n|c\nc|"),
    ("spacedrow", "a\n:-\n c \n  c d  \n| c d | e f |"),
    ("deep", "a\n:-\n    c\n\tc\n \t d|e"),
    ("words", "a b c\n:-\nd e|f g\n"),
    ("inner", "a\n:-\nb  c \t d"),
    ("blankend", "a\n:-\nb\n\nc"),
    ("spaceend", "a\n:-\nb\n   \nc"),
    ("tabend", "a\n:-\nb\n\t\nc"),
    ("mixend", "a\n:-\n \t \nc"),
    ("directblank", "a\n:-\n\nb"),
    ("lastblank", "a\n:-\nb\n"),
    ("lastspaces", "a\n:-\nb\n  "),
    ("twotables", "a\n:-\n\nb\n-:\nc"),
    ("nextinside", "a\n:-\nb\n-:\nc"),
    ("threetables", "a\n:-\n\nb\n:-:\n\n\nc\n-|\n"),
    ("prose", "p\na|b\n-|-\nc"),
    ("proses", "p\nq\n\nr s\n\na\n:-\n\nt\nu"),
    ("prosebetween", "a\n:-\n\np\n\nb\n:-"),
    ("prosebefore", "p q\nb\n:-\nc\n\np"),
    ("quote", "a\n:-\nb\n> c\nd"),
    ("list", "a\n:-\n- b\n# c\n```"),
    ("rule", "a\n:-\n---\n:-"),
    ("blanks", "\n\n \n\t\na\n:-\n\n\n"),
    ("justblank", " \n\t\n\n  "),
    ("alignedbody", "a|b\n:-:|-:\n-|:-\n:|-"),
];

/// Bytes outside the printable ones, tabs and carriage returns, mixed.
pub const BYTES: [(&str, &[u8]); 16] = [
    ("zero", b"\0|a\n-|-\n\0"),
    ("zeros", b"\0\n:-\n\0\0|\0"),
    ("high", b"\xff|\x80\n-|-\n\xc3\xa9|\xfe"),
    ("utf8", "\u{e9}|\u{20ac}\n:-|-:\n\u{1f600}|x".as_bytes()),
    ("mark", b"\xef\xbb\xbfa\n:-\nb"),
    ("nbsp", b"\xc2\xa0a\n:-\n\xc2\xa0"),
    ("vertical", b"\x0ba\x0c\n:-\n\x0b\n\x0c"),
    ("delete", b"\x7f|\x01\n-|-\n\x1f"),
    ("crcrlf", b"a\r\r\n:-"),
    ("cronly", b"a\r:-\rb\r\rc\r:-"),
    ("crlfall", b"a\r\n:-\r\nb\r\n\r\nc\r\n:-\r\n"),
    ("mixture", b"a\r:-\nb\r\nc\n\rd\r\n:-\r"),
    ("loneends", b"\r\n\r\n\n\r"),
    ("tabcr", b"\t\ra\r\n:-\t\r\tb\t\r\n"),
    ("highdelimiter", b"a|b\n-|\xad"),
    ("zerodelimiter", b"a|b\n-|-\0"),
];

/// The line ends of a sheet, in the places where they may stand.
pub const LINE_ENDS: [&str; 5] = ["\n", "\r", "\r\n", "\r\r\n", "\n\r"];

/// Whitespace with tabs, after none to three columns, and some without.
pub const SPACES: [&str; 8] = ["\t", " \t", "  \t", "   \t", "\t\t", "\t ", "    ", " "];

/// Indents of 0 to 5 units, and with tabs.
pub const INDENTS: [&str; 9] = ["", " ", "  ", "   ", "    ", "     ", "\t", "  \t", "\t "];

/// Small tables over every choice of line ends, also none at the end: between rows, and behind each kind of row.
pub fn with_line_ends() -> Vec<Vec<u8>> {
    let mut sheets = vec![];
    for first in LINE_ENDS {
        for last in [""].iter().chain(&LINE_ENDS) {
            sheets.push(format!("a\n:-\nb{first}c{last}").into_bytes());
        }
        for second in LINE_ENDS {
            for last in [""].iter().chain(&LINE_ENDS) {
                sheets.push(format!("a{first}:-{second}b{last}").into_bytes());
            }
        }
    }
    sheets
}

/// A table with whitespace in one of its 12 places: around cells, values and dividers.
pub fn with_space(place: usize, space: &str) -> Vec<u8> {
    let mut text = String::new();
    let parts = ["", "a", "|", "b", "\n", ":-", "|", "-:", "\n", "c", "|", "d"];
    for (at, part) in parts.iter().enumerate() {
        text.push_str(part);
        if at == place {
            text.push_str(space);
        }
    }
    text.into_bytes()
}

/// A table with an indent in its head line, delimiter line or body line.
pub fn with_indent(place: usize, indent: &str) -> Vec<u8> {
    let mut lines = ["a", ":-", "b"].map(str::to_string);
    lines[place].insert_str(0, indent);
    lines.join("\n").into_bytes()
}

/// Remarks, and lines that are near to one.
pub const REMARKS: [Case; 22] = [
    ("bare", "a\n:-\n>"),
    ("barealone", ">"),
    ("nospace", "a\n:-\nb\n>c"),
    ("piped", "a|b\n-|-\n> c | d\ne|f"),
    ("framed", "a|b\n-|-\n|> c|d|\n| > e\n>|f|"),
    ("nested", "a\n:-\n>> b\n> > c"),
    ("inside", "a\n:-\nb > c\nb\n-> d"),
    ("escaped", "a\n:-\n\\> b\nc"),
    ("several", "a\n:-\n> b\n> c\n\n> d\n>"),
    ("under", "a\n> -\n:-"),
    ("quotedhead", "> a\n> :-\n> b"),
    ("quotedrow", ">a|b\n-|-\nc"),
    ("quoteddelimiter", "a\n>:-\nb"),
    ("delimiterhead", "> a\n:-\n:-\nb"),
    ("lazy", "> a\nb\n:-\nc"),
    ("tablebehind", "a\n:-\n> b\nc\n-:\nd"),
    ("tableabove", "> a\nb\n:-\n\n> c\nd\n:-:\n> e\nf"),
    ("rowbehind", "a\n:-\nb\n> c\nd\n\ne"),
    ("blankafter", "a\n:-\nb\n> c\n\nd\n:-\n"),
    ("blankbefore", "a\n:-\nb\n\n> c\nd\n:-\n"),
    ("other", "a\n:-\n< b\n= c\n? d\n&gt; e"),
    ("wide", "a\n:-\n\u{ff1e} b\n\u{203a} c"),
];

/// Indents before a remark: 0 to 5 units, and with tabs.
pub const REMARK_INDENTS: [&str; 11] = ["", " ", "  ", "   ", "    ", "     ", "\t", " \t", "  \t", "   \t", "\t "];

/// How many places `with_remark` knows.
pub const REMARK_PLACES: usize = 7;

/// The line ends of sheets with a remark.
pub const REMARK_LINE_ENDS: [&str; 3] = ["\n", "\r", "\r\n"];

/// A table with a remark in one of so many places: above it, as its head line, as its second line, below it as the first, a middle and the
/// last line, and between it and another.
pub fn with_remark(place: usize, indent: &str, line_end: &str) -> Vec<u8> {
    let remark = &format!("{indent}> c")[..];
    let lines: &[&str] = match place {
        0 => &[remark, "a", ":-", "b", "d"],
        1 => &[remark, ":-", "b", "d"],
        2 => &["a", remark, ":-", "b"],
        3 => &["a", ":-", remark, "b", "d"],
        4 => &["a", ":-", "b", remark, "d"],
        5 => &["a", ":-", "b", "d", remark],
        _ => &["a", ":-", remark, "b", "-:", "d"],
    };
    lines.join(line_end).into_bytes()
}

/// Sheets that begin with a byte order mark, have it elsewhere, or begin with something near to it.
pub const MARKED: [(&str, &[u8]); 34] = [
    ("alone", b"\xef\xbb\xbf"),
    ("head", b"\xef\xbb\xbfa\n:-"),
    ("table", b"\xef\xbb\xbf|a|b|\n|:-|-|\n|c|d|\n"),
    ("crlf", b"\xef\xbb\xbfa\r\n:-\r\nb\r\n"),
    ("cr", b"\xef\xbb\xbfa\r:-\rb\r"),
    ("lineend", b"\xef\xbb\xbf\n"),
    ("lineends", b"\xef\xbb\xbf\r\n\r\na\n:-"),
    ("blankfirst", b"\xef\xbb\xbf \t\na\n:-\nb"),
    ("spaces", b"\xef\xbb\xbf  "),
    ("prosefirst", b"\xef\xbb\xbfp\na\n:-\nb\n\nc\n-:\n"),
    ("twice", b"\xef\xbb\xbf\xef\xbb\xbfa\n:-\nb"),
    ("twicealone", b"\xef\xbb\xbf\xef\xbb\xbf"),
    ("twobytes", b"\xef\xbba\n:-\nb"),
    ("twoalone", b"\xef\xbb"),
    ("onebyte", b"\xefa\n:-\nb"),
    ("onealone", b"\xef"),
    ("lineinside", b"\xef\xbb\na\n:-"),
    ("otherfirst", b"\xee\xbb\xbfa\n:-"),
    ("othersecond", b"\xef\xba\xbfa\n:-"),
    ("otherthird", b"\xef\xbb\xbea\n:-"),
    ("turned", b"\xbf\xbb\xefa\n:-"),
    ("sixteen", b"\xff\xfea\n:-"),
    ("indented", b"\xef\xbb\xbf   a\n:-"),
    ("code", b"\xef\xbb\xbf    a\n:-"),
    ("tabbed", b"\xef\xbb\xbf\ta\n:-"),
    ("tabs", b"\xef\xbb\xbfa\tb|\tc\n:-\t|-\n\td"),
    ("remark", b"\xef\xbb\xbf> a\nb\n:-\nc"),
    ("remarkhead", b"\xef\xbb\xbf   >a\n:-\nb"),
    ("tabremark", b"\xef\xbb\xbf\t>a\n:-\nb"),
    ("second", b"\n\xef\xbb\xbfa\n:-\nb"),
    ("everyline", b"\xef\xbb\xbfa\n\xef\xbb\xbf:-\n\xef\xbb\xbfb"),
    ("inbody", b"\xef\xbb\xbfa\n:-\n\xef\xbb\xbfb\nc\xef\xbb\xbf|d"),
    ("delimiters", b"\xef\xbb\xbf:-\n:-\n:-"),
    ("behindspace", b" \xef\xbb\xbfa\n:-"),
];

/// The offsets at which a head and a row are asked in these: the mark's own, the one behind it, one more.
pub const MARKED_OFFSETS: std::ops::RangeInclusive<u64> = 0..=4;

/// All sheets chosen by hand.
pub fn by_hand() -> Vec<Vec<u8>> {
    let texts = READINGS.iter().chain(&SPECIFICATION).chain(&HEADS).chain(&ESCAPES).chain(&BODIES);
    let mut sheets: Vec<Vec<u8>> = texts.map(|(_, text)| text.as_bytes().to_vec()).collect();
    sheets.extend(BYTES.iter().map(|(_, bytes)| bytes.to_vec()));
    sheets
}

/// Bytes from a small alphabet.
pub fn scattered(random: &mut Random, longest: u64) -> Vec<u8> {
    let alphabet = b"aab||||--:\\ \t\n\n\r";
    (0..1 + random.below(longest)).map(|_| *random.pick(alphabet)).collect()
}

/// Lines of which many make a table.
pub fn tabular(random: &mut Random, most_lines: u64) -> Vec<u8> {
    let mut text = String::new();
    for _ in 0..1 + random.below(most_lines) {
        match random.below(10) {
            0 => text.push_str(random.text(&["", " ", "\t", "  \t"])),
            1 => text.push_str(random.text(&["p", "p q", "> a|b", "-", "    p", "\\|"])),
            2..=4 => text.push_str(&random_row(random)),
            _ => {
                let columns = 1 + random.below(3);
                let written = if random.percent(85) { columns } else { 1 + random.below(3) };
                let line_end = random_line_end(random);
                text.push_str(&random_head(random, columns));
                text.push_str(line_end);
                text.push_str(&random_delimiter(random, written));
            }
        }
        text.push_str(random_line_end(random));
    }
    if random.percent(50) {
        while text.ends_with(['\n', '\r']) {
            text.pop();
        }
    }
    text.into_bytes()
}

/// A head line and a delimiter line, most of them with as many values as cells, some with text behind.
pub fn random_head_lines(random: &mut Random) -> Vec<u8> {
    let columns = 1 + random.below(3);
    let written = if random.percent(75) { columns } else { 1 + random.below(4) };
    let line_end = random_line_end(random);
    let mut text = random_head(random, columns);
    text.push_str(line_end);
    text.push_str(&random_delimiter(random, written));
    if random.percent(8) {
        text.push_str(random.text(&["a", "|", ":", " -", "\\"]));
    }
    if random.percent(50) {
        text.push_str(random_line_end(random));
    }
    text.into_bytes()
}

/// Two or three heads with rows and prose, blank lines between most of them.
pub fn several(random: &mut Random) -> Vec<u8> {
    let mut sheet = vec![];
    for _ in 0..2 + random.below(2) {
        sheet.extend(random_head_lines(random));
        let between = random.text(&["\n\n", "\r\n\r\n", "\n \t\n", "\nb|c\n\n", "\n\np\n", "\r\r", "\n", "\n|\n\n"]);
        sheet.extend(between.as_bytes());
    }
    sheet
}

fn random_line_end(random: &mut Random) -> &'static str {
    random.text(&["\n", "\n", "\n", "\n", "\r\n", "\r"])
}

fn random_space(random: &mut Random) -> &'static str {
    random.text(&["", "", "", "", " ", " ", "  ", "\t", " \t"])
}

fn random_indent(random: &mut Random) -> &'static str {
    random.text(&["", "", "", "", "", "", " ", "   ", "    ", "\t"])
}

fn random_text(random: &mut Random) -> &'static str {
    random.text(&["a", "a", "b", "c d", "\\|", "\\\\", "a\\|b", "-", ":", "\u{e9}", "e\tf", "\\"])
}

/// A head line of so many cells, more or less: a backslash at a cell's end joins it to the next.
fn random_head(random: &mut Random, columns: u64) -> String {
    let (leads, trails) = (random.percent(40), random.percent(40));
    let mut line = random_indent(random).to_string();
    if leads {
        line.push('|');
    }
    for column in 0..columns {
        if column > 0 {
            line.push('|');
        }
        line.push_str(random_space(random));
        line.push_str(random_text(random));
        line.push_str(random_space(random));
    }
    if trails {
        line.push('|');
        line.push_str(random_space(random));
    }
    line
}

/// A delimiter line of so many values.
fn random_delimiter(random: &mut Random, columns: u64) -> String {
    let framed = columns == 1 || random.percent(40);
    let mut line = random_indent(random).to_string();
    if framed {
        line.push('|');
    }
    for column in 0..columns {
        if column > 0 {
            line.push('|');
        }
        line.push_str(random_space(random));
        line.push_str(random.text(&["-", "--", ":-", "-:", ":-:", ":--:"]));
        line.push_str(random_space(random));
    }
    if random.percent(30) {
        line.push('|');
    }
    line
}

/// A row of anything.
fn random_row(random: &mut Random) -> String {
    let mut line = random_space(random).to_string();
    for _ in 0..random.below(5) {
        line.push_str(random.text(&["|", "|", "||", "\\|", "\\"]));
        line.push_str(random_space(random));
        line.push_str(random.text(&["a", "b c", "", "", "\\", "-"]));
        line.push_str(random_space(random));
    }
    line
}
