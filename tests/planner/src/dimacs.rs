//! A formula's text read back, so that what is searched is what a program wrote.

use crate::formula::Clause;

pub struct Cnf {
    pub variables: usize,
    pub clauses: Vec<Clause>,
}

/// Nothing where the text is not a formula of the header's counts.
pub fn parse(text: &str) -> Option<Cnf> {
    let mut lines = text.lines();
    let counts: Vec<usize> = lines.next()?.strip_prefix("p cnf ")?.split(' ').map_while(|n| n.parse().ok()).collect();
    let [variables, count] = counts[..] else { return None };
    let clauses: Vec<Clause> = lines.map(clause).collect::<Option<_>>()?;
    let known = clauses.iter().flatten().all(|literal| literal.unsigned_abs() as usize <= variables);
    (known && clauses.len() == count).then_some(Cnf { variables, clauses })
}

fn clause(line: &str) -> Option<Clause> {
    let literals = line.strip_suffix(" 0")?;
    literals.split(' ').map(|literal| literal.parse().ok().filter(|number| *number != 0)).collect()
}

/// A model in the answer form.
pub fn answer(values: &[bool]) -> String {
    let mut text = String::from("s SATISFIABLE\nv");
    for (place, value) in values.iter().enumerate() {
        text += if *value { " " } else { " -" };
        text += &(place + 1).to_string();
    }
    text + " 0\n"
}
