//! Cases for the programs and calls: a table, or a table and an answer, with the question that is meant to turn it down where that is known.

use super::answers::{self, of_length, right, turned_down, turned_round};
use super::damage::{self, damaged_bytes, random_bytes, scratched, Lines};
use super::draft::file;
use super::limits::{Limit, LIMITS};
use super::tables::{large, middle, small};
use super::Draft;
use crate::dimacs::Cnf;
use crate::files::{answers_turned_down, tables_turned_down, EXAMPLE, EXAMPLE_ANSWER};
use crate::formula::{formula, Formula};
use crate::random::Random;
use crate::search::models;

pub struct TableCase {
    pub name: String,
    pub table: Vec<u8>,
    /// The question meant to be the first unmet one, 0 for none; nothing where that is not known.
    pub meant: Option<u32>,
}

pub struct AnswerCase {
    pub name: String,
    pub table: Vec<u8>,
    pub answer: Vec<u8>,
    pub meant: Option<u32>,
}

/// The example, and a table or an answer for each question that can turn one down.
pub fn each_question() -> Vec<AnswerCase> {
    let case = |number: u32, table: &str, answer: &str| AnswerCase {
        name: format!("for question {number}"),
        table: table.as_bytes().to_vec(),
        answer: answer.as_bytes().to_vec(),
        meant: Some(number),
    };
    let mut cases = vec![case(0, EXAMPLE, EXAMPLE_ANSWER)];
    cases.extend(tables_turned_down().iter().map(|(number, table)| case(*number, table, EXAMPLE_ANSWER)));
    cases.extend(answers_turned_down().iter().map(|(number, answer)| case(*number, EXAMPLE, answer)));
    cases
}

// Tables

pub fn table_case(random: &mut Random) -> TableCase {
    match random.below(100) {
        0..=29 => plain("small", small(random)),
        30..=44 => plain("middle", middle(random)),
        45..=48 => plain("large", large(random)),
        49..=51 => limit_case(random),
        52..=76 => damaged_case(random),
        77..=84 => twice_damaged_case(random),
        85..=87 => {
            let lines = small(random).lines();
            TableCase { name: "damaged bytes".to_string(), table: damaged_bytes(random, &lines), meant: Some(2) }
        }
        88..=95 => {
            let lines = small(random).lines();
            TableCase { name: "scratched".to_string(), table: scratched(random, &lines), meant: None }
        }
        _ => TableCase { name: "random bytes".to_string(), table: random_bytes(random), meant: None },
    }
}

fn plain(name: &str, draft: Draft) -> TableCase {
    TableCase { name: name.to_string(), table: draft.file(), meant: None }
}

pub fn limit_case(random: &mut Random) -> TableCase {
    let limit = random.pick(&LIMITS);
    if random.chance(50) {
        at_limit(random, limit)
    } else {
        past_limit(random, limit)
    }
}

pub fn at_limit(random: &mut Random, limit: &Limit) -> TableCase {
    TableCase { name: format!("at the limit of {}", limit.name), table: (limit.at)(random), meant: Some(0) }
}

pub fn past_limit(random: &mut Random, limit: &Limit) -> TableCase {
    TableCase { name: format!("past the limit of {}", limit.name), table: (limit.past)(random), meant: Some(limit.question) }
}

fn damaged_case(random: &mut Random) -> TableCase {
    loop {
        let damage = damage_of_some_question(random);
        let mut lines = small(random).lines();
        if (damage.change)(random, &mut lines) {
            return TableCase { name: damage.name.to_string(), table: file(&lines), meant: Some(damage.question) };
        }
    }
}

/// Each question as often as another, though some have more reasons.
fn damage_of_some_question(random: &mut Random) -> &'static damage::Damage {
    let question = random.between(3, 7) as u32;
    let reasons: Vec<&damage::Damage> = damage::DAMAGES.iter().filter(|damage| damage.question == question).collect();
    random.pick::<&damage::Damage>(&reasons)
}

fn twice_damaged_case(random: &mut Random) -> TableCase {
    let mut lines: Lines = small(random).lines();
    let first = damage_of_some_question(random);
    let second = damage_of_some_question(random);
    (first.change)(random, &mut lines);
    if !lines.is_empty() {
        (second.change)(random, &mut lines);
    }
    TableCase { name: format!("{} and {}", first.name, second.name), table: file(&lines), meant: None }
}

// Answers

pub fn answer_case(random: &mut Random) -> AnswerCase {
    if random.chance(6) {
        return answer_for_any_table(random);
    }
    let (table, formula) = accepted(random);
    let model = some_model(random, &formula);
    match model {
        Some(values) => answer_to_model(random, table, &formula, &values),
        None => answer_without_model(random, table, &formula),
    }
}

/// A table that may well be turned down, with some answer.
fn answer_for_any_table(random: &mut Random) -> AnswerCase {
    let table = table_case(random).table;
    let values: Vec<bool> = (0..random.between(1, 30)).map(|_| random.chance(50)).collect();
    let lines = right(random, &values);
    AnswerCase { name: "any table".to_string(), table, answer: file(&lines), meant: None }
}

fn accepted(random: &mut Random) -> (Vec<u8>, Formula) {
    loop {
        let table = match random.below(100) {
            0..=74 => small(random).file(),
            75..=97 => middle(random).file(),
            _ => limit_case(random).table,
        };
        if let Ok(formula) = formula(&table) {
            return (table, formula);
        }
    }
}

fn some_model(random: &mut Random, formula: &Formula) -> Option<Vec<bool>> {
    let cnf = Cnf { variables: formula.variables.count as usize, clauses: formula.clauses.clone() };
    let found = models(&cnf, random.between(1, 4), 300).models;
    found.into_iter().last()
}

fn answer_to_model(random: &mut Random, table: Vec<u8>, formula: &Formula, values: &[bool]) -> AnswerCase {
    let mut lines = right(random, values);
    let case = |name: &str, answer: Vec<u8>, meant: Option<u32>| AnswerCase { name: name.to_string(), table: table.clone(), answer, meant };
    match random.below(100) {
        0..=29 => case("right", file(&lines), Some(0)),
        30..=59 => {
            let damage = random.pick(&answers::DAMAGES);
            let meant = (damage.change)(random, &mut lines).then_some(damage.question);
            case(damage.name, file(&lines), meant)
        }
        60..=69 => {
            let (first, second) = (random.pick(&answers::DAMAGES), random.pick(&answers::DAMAGES));
            (first.change)(random, &mut lines);
            (second.change)(random, &mut lines);
            case(&format!("{} and {}", first.name, second.name), file(&lines), None)
        }
        70..=82 => {
            let turned = turned_round(random, values);
            let lines = right(random, &turned);
            case("one value turned round", file(&lines), Some(15))
        }
        83..=87 => {
            let lines = random_values(random, formula);
            case("random values", file(&lines), None)
        }
        88..=93 => case("scratched", scratched(random, &lines), None),
        94..=95 => case("no last LF", file(&lines)[..file(&lines).len() - 1].to_vec(), Some(12)),
        96 if file(&lines).len() < 65_000 => case("65,536 bytes", of_length(&lines, 65_536), Some(0)),
        97 if file(&lines).len() < 65_000 => case("65,537 bytes", of_length(&lines, 65_537), Some(12)),
        98 => case("empty", Vec::new(), Some(12)),
        _ => case("random bytes", random_bytes(random), None),
    }
}

fn answer_without_model(random: &mut Random, table: Vec<u8>, formula: &Formula) -> AnswerCase {
    if random.chance(30) {
        let lines = turned_down(random);
        return AnswerCase { name: "no model".to_string(), table, answer: file(&lines), meant: Some(13) };
    }
    let lines = random_values(random, formula);
    AnswerCase { name: "random values, no model".to_string(), table, answer: file(&lines), meant: None }
}

fn random_values(random: &mut Random, formula: &Formula) -> Lines {
    let percent = *random.pick(&[0, 20, 50, 100]);
    let values: Vec<bool> = (0..formula.variables.count).map(|_| random.chance(percent)).collect();
    right(random, &values)
}
