//! The answer file, in one pass. Solvers give the variables in order, so each number is compared with the next one's numeral first.

use super::numerals::Literal;
use super::places::MOST_VARIABLES;
use planner::{question, Outcome, Refused};

/// A variable that has not stood.
const NOT_YET: u8 = 2;

const MOST_DIGITS: usize = 5;

/// The variables' values, 1 if true.
pub fn values(reply: &[u8], variables: usize) -> Outcome<Vec<u8>> {
    question(12, reply.len() <= 65_536 && reply.last() == Some(&b'\n'))?;
    let mut reader = Reader { reply, at: 0, next: 1, values: vec![NOT_YET; variables], off: false, ended: false, word: None };
    while reader.at < reply.len() {
        reader.line().ok_or(Refused(12))?;
    }
    let word = reader.word.ok_or(Refused(12))?;
    question(12, reader.ended == (word == Word::Satisfiable))?;
    question(13, word == Word::Satisfiable)?;
    question(14, !reader.off && !reader.values.contains(&NOT_YET))?;
    Ok(reader.values)
}

#[derive(Clone, Copy, PartialEq)]
enum Word {
    Satisfiable,
    Other,
}

struct Reader<'a> {
    reply: &'a [u8],
    at: usize,
    /// One more than the last number, where that is a number that a variable may have.
    next: usize,
    values: Vec<u8>,
    /// A number of no variable, or of one that stood.
    off: bool,
    /// The 0 stood.
    ended: bool,
    word: Option<Word>,
}

impl Reader<'_> {
    /// Nothing where the line is not formed. A line ends at the reply's last byte, if not before.
    fn line(&mut self) -> Option<()> {
        match self.reply[self.at..] {
            [b'v', b' ', ..] if self.word == Some(Word::Satisfiable) => {
                self.at += 1;
                self.numbers()
            }
            [b'c', b' ' | b'\n', ..] => {
                self.rest();
                Some(())
            }
            [b's', b' ', ..] => {
                let word = match self.rest() {
                    b"s SATISFIABLE" => Word::Satisfiable,
                    b"s UNSATISFIABLE" | b"s UNKNOWN" => Word::Other,
                    _ => return None,
                };
                self.word.replace(word).is_none().then_some(())
            }
            _ => None,
        }
    }

    /// The rest of the line, without its LF.
    fn rest(&mut self) -> &[u8] {
        let rest = &self.reply[self.at..];
        let length = rest.iter().position(|byte| *byte == b'\n').expect("the last byte is LF");
        self.at += length + 1;
        &rest[..length]
    }

    /// One or more numbers, a space before each.
    fn numbers(&mut self) -> Option<()> {
        while self.reply[self.at] == b' ' {
            self.at += 1;
            self.number()?;
        }
        let ends = self.reply[self.at] == b'\n';
        self.at += 1;
        ends.then_some(())
    }

    #[inline(always)]
    fn number(&mut self) -> Option<()> {
        let minus = self.reply[self.at] == b'-';
        if minus {
            self.at += 1;
        }
        let number = if self.is_next() { self.next } else { self.any_number(minus)? };
        if self.ended {
            return None;
        }
        if number == 0 {
            self.ended = true;
            return Some(());
        }
        match self.values.get_mut(number - 1) {
            Some(value) if *value == NOT_YET => *value = u8::from(!minus),
            _ => self.off = true,
        }
        self.next = if number < MOST_VARIABLES { number + 1 } else { 1 };
        Some(())
    }

    /// Goes past the digits of the next number where they and a space stand here.
    #[inline(always)]
    fn is_next(&mut self) -> bool {
        let Some(window) = self.reply[self.at..].first_chunk() else { return false };
        let expected = Literal::is(self.next as u32);
        let same = (u64::from_le_bytes(*window) ^ expected.bytes) << (64 - 8 * expected.length) == 0;
        if same {
            self.at += expected.length - 1;
        }
        same
    }

    /// Digit by digit.
    fn any_number(&mut self, minus: bool) -> Option<usize> {
        let first = self.at;
        let mut number = 0;
        while self.reply[self.at].is_ascii_digit() && self.at - first <= MOST_DIGITS {
            number = 10 * number + usize::from(self.reply[self.at] - b'0');
            self.at += 1;
        }
        let digits = self.at - first;
        let formed = (1..=MOST_DIGITS).contains(&digits) && (self.reply[first] != b'0' || digits == 1 && !minus);
        formed.then_some(number)
    }
}
