//! The answer file: questions 12 to 14.

use crate::{question, Outcome, Refused};

pub const MOST_BYTES: usize = 65_536;

#[derive(Debug, Clone, Copy, PartialEq, Eq)]
enum Word {
    Satisfiable,
    Unsatisfiable,
    Unknown,
}

enum Line {
    Comment,
    Status(Word),
    Values(Vec<i32>),
}

/// The values that a formed answer gives to `count` variables, the first variable's first.
pub fn values(file: &[u8], count: i32) -> Outcome<Vec<bool>> {
    let (word, numbers) = formed(file).ok_or(Refused(12))?;
    question(13, word == Word::Satisfiable)?;
    let literals = &numbers[..numbers.len() - 1];
    question(14, each_stands_once(literals, count))?;
    let mut values = vec![false; count as usize];
    for literal in literals {
        values[literal.unsigned_abs() as usize - 1] = *literal > 0;
    }
    Ok(values)
}

fn formed(file: &[u8]) -> Option<(Word, Vec<i32>)> {
    if file.len() > MOST_BYTES {
        return None;
    }
    let lines = file.strip_suffix(b"\n")?.split(|byte| *byte == b'\n').map(formed_line);
    let mut word = None;
    let mut numbers = Vec::new();
    for line in lines {
        match line? {
            Line::Comment => (),
            Line::Status(_) if word.is_some() => return None,
            Line::Status(said) => word = Some(said),
            Line::Values(_) if word.is_none() => return None,
            Line::Values(more) => numbers.extend(more),
        }
    }
    let word = word?;
    numbers_suit(word, &numbers).then_some((word, numbers))
}

/// "After SATISFIABLE the number 0 stands once, as the last number. With the other two words there are no `v` lines."
fn numbers_suit(word: Word, numbers: &[i32]) -> bool {
    match word {
        Word::Satisfiable => matches!(numbers.split_last(), Some((0, others)) if !others.contains(&0)),
        _ => numbers.is_empty(),
    }
}

fn formed_line(line: &[u8]) -> Option<Line> {
    match line {
        b"c" | [b'c', b' ', ..] => Some(Line::Comment),
        b"s SATISFIABLE" => Some(Line::Status(Word::Satisfiable)),
        b"s UNSATISFIABLE" => Some(Line::Status(Word::Unsatisfiable)),
        b"s UNKNOWN" => Some(Line::Status(Word::Unknown)),
        [b'v', b' ', numbers @ ..] => {
            let numbers: Option<Vec<i32>> = numbers.split(|byte| *byte == b' ').map(number).collect();
            numbers.map(Line::Values)
        }
        _ => None,
    }
}

/// "no leading zeros, at most five digits, a minus allowed except on 0"
fn number(field: &[u8]) -> Option<i32> {
    if field == b"0" {
        return Some(0);
    }
    let digits = field.strip_prefix(b"-").unwrap_or(field);
    let formed = (1..=5).contains(&digits.len()) && digits[0] != b'0' && digits.iter().all(u8::is_ascii_digit);
    if formed {
        std::str::from_utf8(field).ok()?.parse().ok()
    } else {
        None
    }
}

fn each_stands_once(literals: &[i32], count: i32) -> bool {
    let mut variables: Vec<i32> = literals.iter().map(|literal| literal.abs()).collect();
    variables.sort_unstable();
    variables.into_iter().eq(1..=count)
}

#[cfg(test)]
mod tests {
    use super::*;

    fn outcome(file: &str) -> u32 {
        values(file.as_bytes(), 3).map_or_else(|refused| refused.0, |_| 0)
    }

    #[test]
    fn taken() {
        assert_eq!(values(b"c hello\ns SATISFIABLE\nv 3 -1\nc\nv 2\nv 0\n", 3), Ok(vec![false, true, true]));
    }

    #[test]
    fn question_12() {
        let head = "s SATISFIABLE\n";
        for tail in [
            "",
            "v 1 2 3\n",
            "v 1 2 3 0",
            "v\n",
            "v 1  2 3 0\n",
            "v 1 2 3 0 \n",
            "v 01 2 3 0\n",
            "v 1 0 2 3\n",
            "v -0\n",
            "v 1 2 3 0\nv 0\n",
            "v 100000 0\n",
            "v +1 2 3 0\n",
            "v 1 2 3 0\n\n",
            "cx\nv 1 2 3 0\n",
            "c\tx\nv 1 2 3 0\n",
            "v 1 2 3 0\r\n",
            "s SATISFIABLE\nv 1 2 3 0\n",
            "v - 1 2 3 0\n",
            "v --1 2 3 0\n",
        ] {
            assert_eq!(outcome(&format!("{head}{tail}")), 12, "{tail}");
        }
        for file in ["", "\n", "v 1 2 3 0\n", "v 1 2 3 0\ns SATISFIABLE\n", "s UNSATISFIABLE\nv 0\n", "s SAT\n", "s UNKNOWN \n"] {
            assert_eq!(outcome(file), 12, "{file}");
        }
    }

    #[test]
    fn question_13_and_14() {
        assert_eq!(outcome("s UNSATISFIABLE\n"), 13);
        assert_eq!(outcome("s UNKNOWN\nc\n"), 13);
        for numbers in ["0", "1 2 0", "1 2 3 3 0", "1 2 3 -3 0", "1 2 3 4 0", "1 2 99999 0"] {
            assert_eq!(outcome(&format!("s SATISFIABLE\nv {numbers}\n")), 14, "{numbers}");
        }
    }
}
