//! Document 01's example and the ten marked tables, each with what the document says of it; and the example changed so that one question
//! after another turns it down.

pub const EXAMPLE: &str = "F\topen\nS\tlift\t-\topen\t-\nT\tserve\nM\tserve\tlift\nI\t-\nR\tserve\t1\n";

pub const EXAMPLE_FORMULA: &str = "p cnf 5 9\n1 0\n-1 2 0\n-2 1 0\n-2 3 0\n1 -3 0\n-4 0\n-3 5 0\n-4 5 0\n4 -5 3 0\n";

pub const EXAMPLE_ANSWER: &str = "s SATISFIABLE\nv 1 2 3 -4 5 0\n";

pub const EXAMPLE_LISTING: &str = "J\t0\tserve\t0\nS\t1\tlift\n";

/// A marked table, its name and how many models its formula has.
pub struct Marked {
    pub name: &'static str,
    pub file: String,
    pub models: usize,
}

fn marked(name: &'static str, changes: &[(&str, &str)], models: usize) -> Marked {
    Marked { name, file: changed(changes), models }
}

fn changed(changes: &[(&str, &str)]) -> String {
    let mut file = EXAMPLE.to_string();
    for (from, to) in changes {
        assert!(file.contains(from));
        file = file.replacen(from, to, 1);
    }
    file
}

pub fn ten_marked() -> Vec<Marked> {
    let twice = ("M\tserve\tlift\n", "M\tserve\tserve\nM\tserve\tlift\n");
    let deeper = ("serve\t1", "serve\t2");
    let needing = ("lift\t-\topen", "lift\topen\topen");
    vec![
        marked("as shown", &[], 1),
        marked("depth 2", &[deeper], 1),
        marked("empty body", &[("M\tserve\tlift", "M\tserve\t-")], 1),
        marked("no M line", &[("M\tserve\tlift\n", "")], 0),
        marked("serve and lift, depth 1", &[twice], 1),
        marked("serve and lift, depth 2", &[twice, deeper], 2),
        marked("the M line twice", &[("M\tserve\tlift\n", "M\tserve\tlift\nM\tserve\tlift\n")], 2),
        marked("lift needs open", &[needing], 0),
        marked("lift needs open, true at the start", &[needing, ("I\t-", "I\topen")], 1),
        marked("lift sets and clears open", &[("-\topen\t-", "-\topen\topen")], 1),
    ]
}

/// A table for each of questions 2 to 9 that turns it down.
pub fn tables_turned_down() -> Vec<(u32, String)> {
    let facts: String = (0..63).map(|number| format!("F\tfact-{number}\n")).collect();
    let (one, eight) = ("M\tserve\tlift", format!("M\tserve\t{}", ["serve"; 8].join(",")));
    vec![
        (2, EXAMPLE.trim_end().to_string()),
        (3, changed(&[("serve\t1", "serve\t9")])),
        (4, changed(&[("I\t-\n", "")])),
        (5, changed(&[(one, &format!("{eight},serve"))])),
        (6, changed(&[("T\tserve", "T\topen")])),
        (7, changed(&[("R\tserve", "R\tlift")])),
        (8, changed(&[(one, &eight), ("serve\t1", "serve\t4")])),
        (9, facts + &changed(&[(one, &eight), ("serve\t1", "serve\t3")])),
    ]
}

/// An answer to the example for each of questions 12 to 15 that turns it down.
pub fn answers_turned_down() -> Vec<(u32, &'static str)> {
    vec![(12, ""), (13, "s UNKNOWN\n"), (14, "s SATISFIABLE\nv 0\n"), (15, "s SATISFIABLE\nv -1 2 3 -4 5 0\n")]
}

#[cfg(test)]
mod tests {
    use super::*;
    use crate::programs::{formula_writes, procedure_writes};

    #[test]
    fn each_turned_down_by_its_question() {
        let tables = tables_turned_down();
        assert!(tables.iter().map(|(number, _)| *number).eq(2..=9));
        for (number, file) in tables {
            assert_eq!(formula_writes(file.as_bytes()), format!("refused\t{number}\n"));
        }
        let answers = answers_turned_down();
        assert!(answers.iter().map(|(number, _)| *number).eq(12..=15));
        for (number, file) in answers {
            assert_eq!(procedure_writes(EXAMPLE.as_bytes(), file.as_bytes()), format!("refused\t{number}\n"));
        }
    }
}
