//! Answers: right ones in every shape that is allowed, and one damage for each reason of questions 12 to 15.

use super::damage::Lines;
use crate::random::Random;

/// A model as an answer: literals in any order, in any number of `v` lines, comments anywhere.
pub fn right(random: &mut Random, values: &[bool]) -> Lines {
    let mut numbers: Vec<String> =
        values.iter().enumerate().map(|(place, value)| format!("{}{}", if *value { "" } else { "-" }, place + 1)).collect();
    if random.chance(50) {
        random.shuffle(&mut numbers);
    }
    numbers.push("0".to_string());
    let longest = random.between(1, numbers.len().min(40));
    let mut lines = vec!["s SATISFIABLE".to_string()];
    lines.extend(numbers.chunks(longest).map(|chunk| format!("v {}", chunk.join(" "))));
    with_comments(random, &mut lines);
    lines
}

fn with_comments(random: &mut Random, lines: &mut Lines) {
    for _ in 0..random.below(4) {
        let comment = *random.pick(&["c", "c ", "c a comment", "c v 1 0", "c  s SATISFIABLE", "c \t\r"]);
        lines.insert(random.below(lines.len() + 1), comment.to_string());
    }
}

pub fn turned_down(random: &mut Random) -> Lines {
    let mut lines = vec![random.pick(&["s UNSATISFIABLE", "s UNKNOWN"]).to_string()];
    with_comments(random, &mut lines);
    lines
}

pub struct Damage {
    pub name: &'static str,
    pub question: u32,
    pub change: fn(&mut Random, &mut Lines) -> bool,
}

const fn damage(question: u32, name: &'static str, change: fn(&mut Random, &mut Lines) -> bool) -> Damage {
    Damage { name, question, change }
}

pub static DAMAGES: [Damage; 37] = [
    damage(12, "no s line", |_, lines| take(lines, "s ")),
    damage(12, "two s lines", |random, lines| insert(random, lines, "s SATISFIABLE")),
    damage(12, "another s line", |random, lines| insert(random, lines, "s UNKNOWN")),
    damage(12, "s line last", |_, lines| take(lines, "s ") && insert_last(lines, "s SATISFIABLE")),
    damage(12, "s line of another form", |random, lines| {
        let word = *random.pick(&[
            "s satisfiable",
            "s  SATISFIABLE",
            "s SATISFIABLE ",
            "s",
            "s ",
            "s SAT",
            "sSATISFIABLE",
            "s\tSATISFIABLE",
            "s INDETERMINATE",
            "s SATISFIABLE\r",
            "SATISFIABLE",
            "s UNKNOWNS",
        ]);
        change_line(random, lines, "s ", |_| word.to_string())
    }),
    damage(12, "empty line", |random, lines| insert(random, lines, "")),
    damage(12, "line of another kind", |random, lines| {
        let line = *random.pick(&["x", "d 1", "cx", "c\tx", "C", " c", "o 1", "0", "1 2 0", "\u{e9}", "vv", "V 1"]);
        insert(random, lines, line)
    }),
    damage(12, "v alone", |random, lines| insert_behind_s(random, lines, "v")),
    damage(12, "v and a space", |random, lines| insert_behind_s(random, lines, "v ")),
    damage(12, "no v line", |_, lines| take(lines, "v ")),
    damage(12, "no 0", |_, lines| take_zero(lines)),
    damage(12, "0 twice", |_, lines| insert_last(lines, "v 0")),
    damage(12, "0 twice in a line", |random, lines| change_last(random, lines, |line| format!("{line} 0"))),
    damage(12, "number behind 0", |random, lines| change_last(random, lines, |line| format!("{line} 1"))),
    damage(12, "v line behind 0", |_, lines| insert_last(lines, "v 1")),
    damage(12, "space at the end", |random, lines| change_line(random, lines, "v ", |line| format!("{line} "))),
    damage(12, "two spaces", |random, lines| change_line(random, lines, "v ", |line| line.replacen(' ', "  ", 1))),
    damage(12, "tab", |random, lines| change_line(random, lines, "v ", |line| line.replacen(' ', "\t", 1))),
    damage(12, "no space", |random, lines| change_line(random, lines, "v ", |line| line.replacen(' ', "", 1))),
    damage(12, "CR", |random, lines| change_line(random, lines, "v ", |line| format!("{line}\r"))),
    damage(12, "minus 0", |random, lines| change_last(random, lines, |line| line.strip_suffix('0').unwrap_or(line).to_string() + "-0")),
    damage(12, "00", |random, lines| change_last(random, lines, |line| format!("{line}0").replace(" 00", " 00 0"))),
    damage(12, "plus", |random, lines| insert_behind_s(random, lines, "v +1")),
    damage(12, "leading zero", |random, lines| insert_behind_s(random, lines, "v 01")),
    damage(12, "leading zero behind minus", |random, lines| insert_behind_s(random, lines, "v -01")),
    damage(12, "six digits", |random, lines| insert_behind_s(random, lines, "v 100000")),
    damage(12, "six digits behind minus", |random, lines| insert_behind_s(random, lines, "v -999999")),
    damage(12, "no number", |random, lines| {
        let line = *random.pick(&["v a", "v -", "v 1-", "v --1", "v 1.0", "v 1,2", "v x1", "v 1x", "v \u{e9}", "v /", "v :"]);
        insert_behind_s(random, lines, line)
    }),
    damage(12, "numbers with another word", |random, lines| {
        let word = *random.pick(&["s UNSATISFIABLE", "s UNKNOWN"]);
        change_line(random, lines, "s ", |_| word.to_string())
    }),
    damage(12, "0 with another word", |_, lines| {
        lines.retain(|line| line.starts_with('c'));
        lines.extend(["s UNSATISFIABLE".to_string(), "v 0".to_string()]);
        true
    }),
    damage(13, "another word", |random, lines| {
        *lines = turned_down(random);
        true
    }),
    damage(14, "a variable missing", |random, lines| {
        lines.iter().any(|line| line.starts_with("v ") && line.matches(' ').count() > 2)
            && change_line(random, lines, "v ", without_first_number)
    }),
    damage(14, "a variable twice", |random, lines| {
        let number = some_number(random, lines);
        insert_behind_s(random, lines, &format!("v {number}"))
    }),
    damage(14, "a variable both ways", |random, lines| {
        let number = some_number(random, lines);
        insert_behind_s(random, lines, &format!("v {}", -number))
    }),
    damage(14, "a variable too many", |random, lines| {
        let number = *random.pick(&["8192", "-8192", "99999", "-99999", "65536", "10000"]);
        insert_behind_s(random, lines, &format!("v {number}"))
    }),
    damage(14, "the next variable", |random, lines| {
        let next = numbers(lines).len();
        insert_behind_s(random, lines, &format!("v {next}"))
    }),
    damage(14, "0 alone", |random, lines| {
        let next = numbers(lines).len();
        lines.retain(|line| !line.starts_with("v "));
        next > 1 && insert_behind_s(random, lines, "v 0")
    }),
];

/// One value turned round. That is no model: two models give different trees, which differ in more than one variable.
pub fn turned_round(random: &mut Random, values: &[bool]) -> Vec<bool> {
    let mut turned = values.to_vec();
    let place = random.below(turned.len());
    turned[place] = !turned[place];
    turned
}

fn places(lines: &Lines, start: &str) -> Vec<usize> {
    (0..lines.len()).filter(|place| lines[*place].starts_with(start)).collect()
}

fn take(lines: &mut Lines, start: &str) -> bool {
    let before = lines.len();
    lines.retain(|line| !line.starts_with(start));
    lines.len() < before && !lines.is_empty()
}

fn insert(random: &mut Random, lines: &mut Lines, line: &str) -> bool {
    lines.insert(random.below(lines.len() + 1), line.to_string());
    true
}

fn insert_last(lines: &mut Lines, line: &str) -> bool {
    lines.push(line.to_string());
    true
}

/// At the place behind the `s` line, so before the 0.
fn insert_behind_s(_: &mut Random, lines: &mut Lines, line: &str) -> bool {
    let Some(place) = places(lines, "s ").first().copied() else { return false };
    lines.insert(place + 1, line.to_string());
    true
}

fn change_line(random: &mut Random, lines: &mut Lines, start: &str, change: impl Fn(&str) -> String) -> bool {
    let places = places(lines, start);
    if places.is_empty() {
        return false;
    }
    let place = *random.pick(&places);
    let changed = change(&lines[place]);
    let differs = changed != lines[place];
    lines[place] = changed;
    differs
}

/// The line with the 0.
fn change_last(_: &mut Random, lines: &mut Lines, change: impl Fn(&str) -> String) -> bool {
    let Some(place) = places(lines, "v ").last().copied() else { return false };
    lines[place] = change(&lines[place]);
    true
}

fn take_zero(lines: &mut Lines) -> bool {
    let Some(place) = places(lines, "v ").last().copied() else { return false };
    match lines[place].strip_suffix(" 0") {
        Some("v") => drop(lines.remove(place)),
        Some(rest) => lines[place] = rest.to_string(),
        None => return false,
    }
    true
}

fn numbers(lines: &Lines) -> Vec<i32> {
    let fields = lines.iter().filter_map(|line| line.strip_prefix("v ")).flat_map(|rest| rest.split(' '));
    fields.filter_map(|field| field.parse().ok()).collect()
}

fn some_number(random: &mut Random, lines: &Lines) -> i32 {
    let numbers: Vec<i32> = numbers(lines).into_iter().filter(|number| *number != 0).collect();
    if numbers.is_empty() {
        1
    } else {
        *random.pick(&numbers)
    }
}

fn without_first_number(line: &str) -> String {
    let numbers: Vec<&str> = line.split(' ').collect();
    if numbers.len() <= 2 || numbers[1] == "0" {
        return line.to_string();
    }
    format!("v {}", numbers[2..].join(" "))
}

/// An answer with comments behind it up to a length, which is at least two bytes more than it has.
pub fn of_length(lines: &Lines, length: usize) -> Vec<u8> {
    let mut bytes = super::draft::file(lines);
    while length - bytes.len() > 82 {
        bytes.extend(comment(80).bytes());
    }
    let last = comment(length - bytes.len());
    bytes.extend(last.bytes());
    bytes
}

/// A comment line of so many bytes, at least two.
fn comment(bytes: usize) -> String {
    if bytes == 2 {
        "c\n".to_string()
    } else {
        format!("c {}\n", "x".repeat(bytes - 3))
    }
}

#[cfg(test)]
mod tests {
    use super::*;
    use crate::answer::values;
    use crate::make::draft::file;

    #[test]
    fn each_damage_gives_its_question() {
        let mut random = Random::new(4);
        for damage in &DAMAGES {
            let mut found = 0;
            while found < 50 {
                let model: Vec<bool> = (0..random.between(1, 30)).map(|_| random.chance(50)).collect();
                let mut lines = right(&mut random, &model);
                assert_eq!(values(&file(&lines), model.len() as i32), Ok(model.clone()));
                if (damage.change)(&mut random, &mut lines) {
                    let given = values(&file(&lines), model.len() as i32).map_or_else(|refused| refused.0, |_| 0);
                    assert_eq!(given, damage.question, "{}: {lines:#?}", damage.name);
                    found += 1;
                }
            }
        }
    }

    #[test]
    fn filled_up() {
        let lines = vec!["s UNKNOWN".to_string()];
        for length in 12..400 {
            assert_eq!(of_length(&lines, length).len(), length);
            assert_eq!(values(&of_length(&lines, length), 1).map_err(|refused| refused.0), Err(13), "{length}");
        }
    }
}
