//! A small search of the tests' own for models: unit propagation with two watched literals a clause, and chronological backtracking.

use crate::dimacs::Cnf;

/// What a search found before it ended or had spent its decisions.
pub struct Found {
    pub models: Vec<Vec<bool>>,
    pub spent: bool,
}

/// At most `most` models, within so many decisions.
pub fn models(cnf: &Cnf, most: usize, decisions: usize) -> Found {
    let mut search = Search::new(cnf);
    search.run(&cnf.clauses, most, decisions)
}

struct Decision {
    trail: usize,
    literal: i32,
    turned: bool,
}

struct Search {
    clauses: Vec<Vec<i32>>,
    watching: Vec<Vec<usize>>,
    values: Vec<Option<bool>>,
    trail: Vec<i32>,
    propagated: usize,
    decisions: Vec<Decision>,
}

/// The place of a literal's watch list.
fn list_of(literal: i32) -> usize {
    2 * literal.unsigned_abs() as usize + usize::from(literal < 0)
}

impl Search {
    fn new(cnf: &Cnf) -> Search {
        Search {
            clauses: Vec::new(),
            watching: vec![Vec::new(); 2 * cnf.variables + 2],
            values: vec![None; cnf.variables + 1],
            trail: Vec::new(),
            propagated: 0,
            decisions: Vec::new(),
        }
    }

    fn run(&mut self, clauses: &[Vec<i32>], most: usize, decisions: usize) -> Found {
        let mut found = Found { models: Vec::new(), spent: false };
        if !clauses.iter().all(|clause| self.add(clause)) {
            return found;
        }
        let mut left = decisions;
        loop {
            let goes_on = if !self.propagate() {
                self.turn_back()
            } else if let Some(variable) = self.next_free() {
                found.spent = left == 0;
                left = left.saturating_sub(1);
                self.decide(variable as i32);
                !found.spent
            } else {
                found.models.push(self.model());
                found.models.len() < most && self.turn_back()
            };
            if !goes_on {
                return found;
            }
        }
    }

    fn model(&self) -> Vec<bool> {
        self.values[1..].iter().map(|value| *value == Some(true)).collect()
    }

    /// False where the clause contradicts the units before it.
    fn add(&mut self, clause: &[i32]) -> bool {
        let mut literals = clause.to_vec();
        literals.sort_unstable();
        literals.dedup();
        match literals[..] {
            [] => false,
            [unit] => self.value(unit) == Some(true) || (self.value(unit).is_none() && self.assign(unit)),
            [first, second, ..] => {
                self.watching[list_of(first)].push(self.clauses.len());
                self.watching[list_of(second)].push(self.clauses.len());
                self.clauses.push(literals);
                true
            }
        }
    }

    fn value(&self, literal: i32) -> Option<bool> {
        self.values[literal.unsigned_abs() as usize].map(|value| value == (literal > 0))
    }

    fn assign(&mut self, literal: i32) -> bool {
        self.values[literal.unsigned_abs() as usize] = Some(literal > 0);
        self.trail.push(literal);
        true
    }

    fn next_free(&self) -> Option<usize> {
        self.values.iter().skip(1).position(Option::is_none).map(|place| place + 1)
    }

    fn decide(&mut self, literal: i32) {
        self.decisions.push(Decision { trail: self.trail.len(), literal, turned: false });
        self.assign(literal);
    }

    /// Takes back to the last decision that has another side, and takes that side.
    fn turn_back(&mut self) -> bool {
        while let Some(decision) = self.decisions.pop() {
            for literal in self.trail.drain(decision.trail..) {
                self.values[literal.unsigned_abs() as usize] = None;
            }
            self.propagated = decision.trail;
            if !decision.turned {
                self.decisions.push(Decision { literal: -decision.literal, turned: true, ..decision });
                return self.assign(-decision.literal);
            }
        }
        false
    }

    /// False at a conflict.
    fn propagate(&mut self) -> bool {
        while self.propagated < self.trail.len() {
            let falsified = -self.trail[self.propagated];
            self.propagated += 1;
            let watchers = std::mem::take(&mut self.watching[list_of(falsified)]);
            let mut at = 0;
            let mut kept = Vec::with_capacity(watchers.len());
            let mut holds = true;
            while at < watchers.len() && holds {
                let clause = watchers[at];
                at += 1;
                if !self.rewatch(clause, falsified) {
                    kept.push(clause);
                    let first = self.clauses[clause][0];
                    holds = match self.value(first) {
                        None => self.assign(first),
                        Some(value) => value,
                    };
                }
            }
            kept.extend_from_slice(&watchers[at..]);
            self.watching[list_of(falsified)] = kept;
            if !holds {
                return false;
            }
        }
        true
    }

    /// Moves the clause's watch from the falsified literal, which comes to stand second, to another that is not false. False where the
    /// watch stays: the first literal is true, or is the last that can be.
    fn rewatch(&mut self, number: usize, falsified: i32) -> bool {
        if self.clauses[number][0] == falsified {
            self.clauses[number].swap(0, 1);
        }
        if self.value(self.clauses[number][0]) == Some(true) {
            return false;
        }
        let other = (2..self.clauses[number].len()).find(|at| self.value(self.clauses[number][*at]) != Some(false));
        if let Some(at) = other {
            self.clauses[number].swap(1, at);
            let watched = self.clauses[number][1];
            self.watching[list_of(watched)].push(number);
        }
        other.is_some()
    }
}

#[cfg(test)]
mod tests {
    use super::*;
    use crate::dimacs::parse;
    use crate::files::ten_marked;
    use crate::programs::formula_writes;

    #[test]
    fn the_ten_marked_tables() {
        for marked in ten_marked() {
            let cnf = parse(&formula_writes(marked.file.as_bytes())).unwrap();
            let found = models(&cnf, 100, 1_000);
            assert!(!found.spent);
            assert_eq!(found.models.len(), marked.models, "{}", marked.name);
        }
    }

    #[test]
    fn all_models_of_random_formulas() {
        let mut random = crate::random::Random::new(5);
        for _ in 0..300 {
            let clauses: Vec<Vec<i32>> = (0..random.below(14)).map(|_| random_clause(&mut random)).collect();
            let found = models(&Cnf { variables: 5, clauses: clauses.clone() }, 100, 1_000);
            let mut counted = 0;
            for bits in 0..32 {
                let values: Vec<bool> = (0..5).map(|place| bits >> place & 1 == 1).collect();
                let model = clauses.iter().all(|clause| crate::model::satisfies(&values, clause));
                assert_eq!(model, found.models.contains(&values));
                counted += usize::from(model);
            }
            assert_eq!(counted, found.models.len());
        }
    }

    fn random_clause(random: &mut crate::random::Random) -> Vec<i32> {
        (0..random.between(1, 3)).map(|_| (random.below(5) as i32 + 1) * if random.chance(50) { 1 } else { -1 }).collect()
    }
}
