//! Reads the words of a request. `None` is an unreadable request.

use crate::questions::Edit;
use crate::record::Record;

/// The words of a request line, separated by one space.
pub struct Words<'a> {
    words: std::str::Split<'a, char>,
}

impl<'a> Words<'a> {
    pub fn new(line: &'a str) -> Words<'a> {
        Words { words: line.split(' ') }
    }

    pub fn word(&mut self) -> Option<&'a str> {
        self.words.next()
    }

    pub fn number(&mut self) -> Option<u64> {
        number(self.word()?)
    }

    pub fn flag(&mut self) -> Option<bool> {
        match self.word()? {
            "0" => Some(false),
            "1" => Some(true),
            _ => None,
        }
    }

    pub fn bytes(&mut self) -> Option<Vec<u8>> {
        bytes(self.word()?)
    }

    /// All events up to the end of the line.
    pub fn events(&mut self) -> Option<Vec<Record>> {
        self.words.by_ref().map(event).collect()
    }

    /// This many events.
    pub fn some_events(&mut self, count: u64) -> Option<Vec<Record>> {
        (0..count).map(|_| event(self.word()?)).collect()
    }

    /// This many edits, five numbers each.
    pub fn edits(&mut self, count: u64) -> Option<Vec<[u64; 5]>> {
        (0..count).map(|_| self.five()).collect()
    }

    fn five(&mut self) -> Option<[u64; 5]> {
        let mut five = [0; 5];
        for field in &mut five {
            *field = self.number()?;
        }
        Some(five)
    }

    /// Nothing may be left.
    pub fn end(&mut self) -> Option<()> {
        self.word().is_none().then_some(())
    }
}

/// Decimal digits, at most 64 bits.
fn number(word: &str) -> Option<u64> {
    let is_decimal = !word.is_empty() && word.bytes().all(|byte| byte.is_ascii_digit());
    is_decimal.then(|| word.parse().ok())?
}

/// Lowercase hex, two digits a byte; `-` for none.
fn bytes(word: &str) -> Option<Vec<u8>> {
    if word == "-" {
        return Some(vec![]);
    }
    let digits: Option<Vec<u8>> = word.bytes().map(digit).collect();
    let digits = digits.filter(|digits| !digits.is_empty() && digits.len() % 2 == 0)?;
    Some(digits.chunks(2).map(|pair| pair[0] * 16 + pair[1]).collect())
}

fn digit(byte: u8) -> Option<u8> {
    match byte {
        b'0'..=b'9' => Some(byte - b'0'),
        b'a'..=b'f' => Some(byte - b'a' + 10),
        _ => None,
    }
}

/// Seven numbers joined by commas.
fn event(word: &str) -> Option<Record> {
    let fields: Vec<u64> = word.split(',').map(number).collect::<Option<_>>()?;
    match fields[..] {
        [kind, name, line, column, index, vs, link] => Some(Record { kind, name, line, column, index, vs, link }),
        _ => None,
    }
}

/// Five numbers as an edit; `before` is no where it is 0.
pub fn edit(five: &[u64; 5]) -> Edit {
    let [position, removed, start, count, before] = *five;
    Edit { position, removed, start, count, before: before != 0 }
}
