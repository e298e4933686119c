//! Damaged tables: one entry for each reason of questions 2 to 7. A damage changes the lines and says whether it found its place.

use super::draft::file;
use crate::random::Random;

pub type Lines = Vec<String>;

pub struct Damage {
    pub name: &'static str,
    pub question: u32,
    pub change: fn(&mut Random, &mut Lines) -> bool,
}

const fn damage(question: u32, name: &'static str, change: fn(&mut Random, &mut Lines) -> bool) -> Damage {
    Damage { name, question, change }
}

pub static DAMAGES: [Damage; 62] = [
    damage(3, "unknown letter", |random, lines| {
        let letter = *random.pick(&["X", "f", "s", "#", "FF", " F", "", "I ", "\u{e9}"]);
        change_field(random, lines, "FSTMIR", 0, |_| letter.to_string())
    }),
    damage(3, "empty line", |random, lines| insert(random, lines, "")),
    damage(3, "extra LF at the end", |_, lines| push(lines, "")),
    damage(3, "letter alone", |random, lines| change_line(random, lines, "FSTMIR", |line| line[..1].to_string())),
    damage(3, "field missing", |random, lines| {
        change_line(random, lines, "FSTMIR", |line| line.rsplit_once('\t').map_or(String::new(), |(head, _)| head.to_string()))
    }),
    damage(3, "field too many", |random, lines| change_line(random, lines, "FSTMIR", |line| format!("{line}\t-"))),
    damage(3, "tab at the end", |random, lines| change_line(random, lines, "FSTMIR", |line| format!("{line}\t"))),
    damage(3, "two tabs", |random, lines| change_line(random, lines, "FSTMIR", |line| line.replacen('\t', "\t\t", 1))),
    damage(3, "space for tab", |random, lines| change_line(random, lines, "FSTMIR", |line| line.replacen('\t', " ", 1))),
    damage(3, "space before", |random, lines| change_line(random, lines, "FSTMIR", |line| format!(" {line}"))),
    damage(3, "space behind", |random, lines| change_line(random, lines, "FSTMIR", |line| format!("{line} "))),
    damage(3, "CR at the end", |random, lines| change_line(random, lines, "FSTMIR", |line| format!("{line}\r"))),
    damage(3, "empty field", |random, lines| change_some_field(random, lines, |_| String::new())),
    damage(3, "capital", |random, lines| change_field(random, lines, "FSTMR", 1, |name| name.to_uppercase() + "A")),
    damage(3, "digit first", |random, lines| change_field(random, lines, "FSTMR", 1, |_| "1a".to_string())),
    damage(3, "hyphen first", |random, lines| change_field(random, lines, "FSTMR", 1, |_| "-a".to_string())),
    damage(3, "hyphen for a name", |random, lines| change_field(random, lines, "FSTMR", 1, |_| "-".to_string())),
    damage(3, "list for a name", |random, lines| change_field(random, lines, "FSTMR", 1, |_| "a,b".to_string())),
    damage(3, "thirteen characters", |random, lines| change_field(random, lines, "FSTMR", 1, |_| "abcdefghijklm".to_string())),
    damage(3, "thirteen characters in a list", |random, lines| {
        change_field(random, lines, "SMI", 2, |_| "a,abcdefghijklm".to_string())
            || change_field(random, lines, "I", 1, |_| "abcdefghijklm".to_string())
    }),
    damage(3, "strange character in a name", |random, lines| {
        let strange = *random.pick(&["_", ".", "\u{e9}", "\0", "\u{7f}", "{", "`", "/", ":", "\"", " "]);
        change_field(random, lines, "FSTMR", 1, |_| format!("a{strange}"))
    }),
    damage(3, "comma at the end", |random, lines| change_list(random, lines, |list| format!("{list},"))),
    damage(3, "comma first", |random, lines| change_list(random, lines, |list| format!(",{list}"))),
    damage(3, "two commas", |random, lines| change_list(random, lines, |_| "a,,b".to_string())),
    damage(3, "comma alone", |random, lines| change_list(random, lines, |_| ",".to_string())),
    damage(3, "hyphen in a list", |random, lines| change_list(random, lines, |list| format!("{list},-"))),
    damage(3, "two hyphens", |random, lines| change_list(random, lines, |_| "--".to_string())),
    damage(3, "space behind a comma", |random, lines| change_list(random, lines, |_| "a, b".to_string())),
    damage(3, "depth 0", |random, lines| change_field(random, lines, "R", 2, |_| "0".to_string())),
    damage(3, "depth 9", |random, lines| change_field(random, lines, "R", 2, |_| "9".to_string())),
    damage(3, "depth of two digits", |random, lines| change_field(random, lines, "R", 2, |depth| format!("{depth}{depth}"))),
    damage(3, "depth with a zero", |random, lines| change_field(random, lines, "R", 2, |depth| format!("0{depth}"))),
    damage(3, "depth no digit", |random, lines| {
        let depth = *random.pick(&["a", "-", "", "+1", "-1", " 1", "1 "]);
        change_field(random, lines, "R", 2, |_| depth.to_string())
    }),
    damage(4, "no I line", |_, lines| remove(lines, "I")),
    damage(4, "no R line", |_, lines| remove(lines, "R")),
    damage(4, "neither I nor R", |_, lines| lines.len() > 2 && remove(lines, "I") && remove(lines, "R")),
    damage(4, "two I lines", |_, lines| double(lines, "I")),
    damage(4, "two R lines", |_, lines| double(lines, "R")),
    damage(4, "line behind R", |random, lines| {
        let line = *random.pick(&["F\tlater", "S\tlater\t-\t-\t-", "T\tlater", "M\tlater\t-"]);
        push(lines, line)
    }),
    damage(4, "R before I", |_, lines| swap_last(lines)),
    damage(4, "lines of two kinds change places", change_places),
    damage(4, "I line first", |_, lines| lines.len() > 2 && move_first(lines, "I")),
    damage(5, "nine names in a body", |random, lines| {
        let name = task(random, lines);
        change_field(random, lines, "M", 2, |_| [name.as_str(); 9].join(","))
    }),
    damage(5, "nine unknown names in a body", |random, lines| change_field(random, lines, "M", 2, |_| ["none"; 9].join(","))),
    damage(5, "65 facts", |_, lines| add_lines(lines, "F", 65, "")),
    damage(5, "65 steps", |_, lines| add_lines(lines, "S", 65, "\t-\t-\t-")),
    damage(5, "65 jobs", |_, lines| add_lines(lines, "T", 65, "")),
    damage(5, "129 methods", |_, lines| add_lines(lines, "M", 129, "\t-")),
    damage(5, "65 times one fact", |_, lines| repeat(lines, "F", 65)),
    damage(6, "fact declared twice", |random, lines| declare_again(random, lines, "F", "F")),
    damage(6, "step named as a fact", |random, lines| declare_again(random, lines, "F", "S")),
    damage(6, "job named as a fact", |random, lines| declare_again(random, lines, "F", "T")),
    damage(6, "step declared twice", |random, lines| declare_again(random, lines, "S", "S")),
    damage(6, "job named as a step", |random, lines| declare_again(random, lines, "S", "T")),
    damage(6, "job declared twice", |random, lines| declare_again(random, lines, "T", "T")),
    damage(7, "unknown name in a list", |random, lines| change_list(random, lines, |list| with(list, "zz-none"))),
    damage(7, "method of no job", |random, lines| {
        let name = random_name(random, lines, "FS");
        change_field(random, lines, "M", 1, |_| name.clone())
    }),
    damage(7, "root no job", |random, lines| {
        let name = random_name(random, lines, "FS");
        change_field(random, lines, "R", 1, |_| name.clone())
    }),
    damage(7, "fact in a body", |random, lines| {
        let name = random_name(random, lines, "F");
        change_field(random, lines, "M", 2, |_| name.clone())
    }),
    damage(7, "no fact among facts", |random, lines| {
        let name = random_name(random, lines, "ST");
        change_fact_list(random, lines, |list| with(list, &name))
    }),
    damage(7, "fact twice in a list", |random, lines| {
        let name = random_name(random, lines, "F");
        change_fact_list(random, lines, |list| with(&with(list, &name), &name))
    }),
    damage(7, "65 names in a list", |random, lines| {
        let name = random_name(random, lines, "F");
        change_fact_list(random, lines, |_| [name.as_str(); 65].join(","))
    }),
];

/// Damages of the bytes, all of question 2.
pub fn damaged_bytes(random: &mut Random, lines: &Lines) -> Vec<u8> {
    let mut bytes = file(lines);
    match random.below(5) {
        0 => bytes.clear(),
        1 => drop(bytes.pop()),
        2 => bytes.push(*random.pick(b"Rx\r\t \0")),
        3 => bytes = [bytes.clone(), b"F\n".repeat(32_769)].concat(),
        _ => bytes = vec![*random.pick(b"\nF\0"); 65_537],
    }
    bytes
}

/// One to four bytes changed, put in or taken out, anywhere.
pub fn scratched(random: &mut Random, lines: &Lines) -> Vec<u8> {
    let mut bytes = file(lines);
    for _ in 0..random.between(1, 4) {
        let at = random.below(bytes.len().max(1));
        let byte = if random.chance(70) { *random.pick(b"FSTMIR\t\n,-a1z08 ") } else { random.below(256) as u8 };
        match random.below(3) {
            0 if at < bytes.len() => bytes[at] = byte,
            1 if at < bytes.len() => drop(bytes.remove(at)),
            _ => bytes.insert(at, byte),
        }
    }
    bytes
}

/// Bytes of no table, or of its alphabet.
pub fn random_bytes(random: &mut Random) -> Vec<u8> {
    let length = random.below(200);
    let any = random.chance(30);
    let mut bytes: Vec<u8> =
        (0..length).map(|_| if any { random.below(256) as u8 } else { *random.pick(b"FSTMIR\t\t\t\n\n,-ab1") }).collect();
    if random.chance(80) {
        bytes.push(b'\n');
    }
    bytes
}

// Lines

fn is_of(line: &str, letters: &str) -> bool {
    line.chars().next().is_some_and(|letter| letters.contains(letter))
}

/// The places of the lines of these letters.
fn places(lines: &Lines, letters: &str) -> Vec<usize> {
    (0..lines.len()).filter(|place| is_of(&lines[*place], letters)).collect()
}

fn change_line(random: &mut Random, lines: &mut Lines, letters: &str, change: impl Fn(&str) -> String) -> bool {
    let places = places(lines, letters);
    if places.is_empty() {
        return false;
    }
    let place = *random.pick(&places);
    let changed = change(&lines[place]);
    let differs = changed != lines[place];
    lines[place] = changed;
    differs
}

fn change_field(random: &mut Random, lines: &mut Lines, letters: &str, field: usize, change: impl Fn(&str) -> String) -> bool {
    change_line(random, lines, letters, |line| with_field(line, field, &change))
}

fn with_field(line: &str, field: usize, change: impl Fn(&str) -> String) -> String {
    let mut fields: Vec<String> = line.split('\t').map(str::to_string).collect();
    if let Some(found) = fields.get_mut(field) {
        *found = change(found);
    }
    fields.join("\t")
}

fn change_some_field(random: &mut Random, lines: &mut Lines, change: impl Fn(&str) -> String) -> bool {
    let choice = random.word() as usize;
    change_line(random, lines, "FSTMIR", |line| with_field(line, 1 + choice % line.matches('\t').count().max(1), &change))
}

/// A list of facts or a body.
fn change_list(random: &mut Random, lines: &mut Lines, change: impl Fn(&str) -> String) -> bool {
    let choice = random.below(3);
    change_line(random, lines, "SMI", |line| {
        let field = match line.chars().next() {
            Some('S') => 2 + choice,
            Some('M') => 2,
            _ => 1,
        };
        with_field(line, field, &change)
    })
}

fn change_fact_list(random: &mut Random, lines: &mut Lines, change: impl Fn(&str) -> String) -> bool {
    let choice = random.below(3);
    change_line(random, lines, "SI", |line| with_field(line, if line.starts_with('S') { 2 + choice } else { 1 }, &change))
}

/// The list with a name more.
fn with(list: &str, name: &str) -> String {
    if list == "-" {
        name.to_string()
    } else {
        format!("{list},{name}")
    }
}

fn push(lines: &mut Lines, line: &str) -> bool {
    lines.push(line.to_string());
    true
}

fn insert(random: &mut Random, lines: &mut Lines, line: &str) -> bool {
    lines.insert(random.below(lines.len() + 1), line.to_string());
    true
}

fn remove(lines: &mut Lines, letter: &str) -> bool {
    let before = lines.len();
    lines.retain(|line| !is_of(line, letter));
    lines.len() < before && !lines.is_empty()
}

fn double(lines: &mut Lines, letter: &str) -> bool {
    let found = places(lines, letter);
    for place in &found {
        lines.insert(*place, lines[*place].clone());
    }
    !found.is_empty()
}

fn swap_last(lines: &mut Lines) -> bool {
    let last = lines.len() - 1;
    last > 0 && {
        lines.swap(last - 1, last);
        true
    }
}

fn move_first(lines: &mut Lines, letter: &str) -> bool {
    let found = places(lines, letter);
    found.first().is_some_and(|place| {
        let line = lines.remove(*place);
        lines.insert(0, line);
        *place > 0
    })
}

fn change_places(random: &mut Random, lines: &mut Lines) -> bool {
    let first = random.below(lines.len());
    let second = random.below(lines.len());
    lines.swap(first, second);
    lines[first].get(..1) != lines[second].get(..1)
}

/// Lines of a letter up to a count, with new names; the methods' are of the last job.
fn add_lines(lines: &mut Lines, letter: &str, count: usize, tail: &str) -> bool {
    let have = places(lines, letter).len();
    let order = "FSTMIR";
    let upto = &order[..=order.find(letter).unwrap_or(0)];
    let at = places(lines, upto).last().map_or(0, |place| place + 1);
    let job = declared(lines, "T").pop().unwrap_or_default();
    for number in have..count {
        let name = if letter == "M" { job.clone() } else { format!("new-{number}") };
        lines.insert(at, format!("{letter}\t{name}{tail}"));
    }
    true
}

/// One line of a letter repeated up to a count.
fn repeat(lines: &mut Lines, letter: &str, count: usize) -> bool {
    let found = places(lines, letter);
    found.first().is_some_and(|place| {
        for _ in found.len()..count {
            lines.insert(*place, lines[*place].clone());
        }
        true
    })
}

/// A name of the first kind declared again as the second.
fn declare_again(random: &mut Random, lines: &mut Lines, first: &str, second: &str) -> bool {
    let from = places(lines, first);
    let to = places(lines, second);
    if from.is_empty() || to.is_empty() {
        return false;
    }
    let name = lines[*random.pick(&from)].split('\t').nth(1).unwrap_or("").to_string();
    let line = with_field(&lines[*random.pick(&to)], 1, |_| name.clone());
    lines.insert(*random.pick(&to), line);
    places(lines, second).len() <= 64
}

fn declared(lines: &Lines, letters: &str) -> Vec<String> {
    places(lines, letters).iter().filter_map(|place| lines[*place].split('\t').nth(1)).map(str::to_string).collect()
}

/// A declared name of one of these letters, or one that nothing has.
fn random_name(random: &mut Random, lines: &Lines, letters: &str) -> String {
    let names = declared(lines, letters);
    if names.is_empty() {
        "zz-none".to_string()
    } else {
        random.pick(&names).clone()
    }
}

fn task(random: &mut Random, lines: &Lines) -> String {
    random_name(random, lines, "ST")
}

#[cfg(test)]
mod tests {
    use super::*;
    use crate::make::tables::small;
    use crate::reader::read;

    #[test]
    fn each_damage_gives_its_question() {
        let mut random = Random::new(3);
        for damage in &DAMAGES {
            let mut found = 0;
            while found < 50 {
                let mut lines = small(&mut random).lines();
                if (damage.change)(&mut random, &mut lines) {
                    let given = read(&file(&lines)).map_or_else(|refused| refused.0, |_| 0);
                    assert_eq!(given, damage.question, "{}: {lines:#?}", damage.name);
                    found += 1;
                }
            }
        }
    }
}
