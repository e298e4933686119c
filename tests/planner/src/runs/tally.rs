//! Passed and failed cases, counted by the number that was given; a failing case is saved and its path printed.

use std::collections::{BTreeMap, BTreeSet};
use std::path::PathBuf;
use std::process::ExitCode;

const MOST_SAVED: usize = 20;

pub struct Tally {
    pub passed: usize,
    pub failed: usize,
    given: BTreeMap<u32, usize>,
    /// By what the cases went through.
    given_by: BTreeMap<&'static str, BTreeSet<u32>>,
    saved_in: PathBuf,
}

impl Tally {
    pub fn new(saved_in: PathBuf) -> Tally {
        Tally { passed: 0, failed: 0, given: BTreeMap::new(), given_by: BTreeMap::new(), saved_in }
    }

    /// A case with the number that the second planner gives it and the files that show it, in case it fails.
    pub fn case(&mut self, name: &str, number: u32, passes: bool, files: &[(&str, &[u8])]) {
        *self.given.entry(number).or_default() += 1;
        self.count(name, passes, files);
    }

    /// What holds of a run as a whole.
    pub fn holds(&mut self, name: &str, passes: bool) {
        self.count(name, passes, &[]);
    }

    fn count(&mut self, name: &str, passes: bool, files: &[(&str, &[u8])]) {
        if passes {
            self.passed += 1;
        } else {
            self.failed += 1;
            self.save(name, files);
        }
    }

    fn save(&self, name: &str, files: &[(&str, &[u8])]) {
        if self.failed > MOST_SAVED {
            return;
        }
        let folder = self.saved_in.join(self.failed.to_string());
        std::fs::create_dir_all(&folder).expect("a folder for failing cases can be made");
        for (file, bytes) in files {
            std::fs::write(folder.join(file), bytes).expect("a failing case can be saved");
        }
        println!("failed: {name}: {}", folder.display());
    }

    /// How many cases each number was given to, since the last time.
    pub fn print_given(&mut self, title: &str) {
        let counts: Vec<String> = self.given.iter().map(|(number, count)| format!("{number}: {count}")).collect();
        let all: usize = self.given.values().sum();
        println!("{title}: {all} cases; by number given, 0 for taken: {}", counts.join(", "));
        self.given.clear();
    }

    /// A case went through this and was given the number.
    pub fn given_by(&mut self, what: &'static str, number: u32) {
        self.given_by.entry(what).or_default().insert(number);
    }

    /// The cases through this were given these numbers, and no others. A run that never came to one of the questions has not put it.
    pub fn gives(&mut self, what: &'static str, numbers: &[u32]) {
        let wanted: BTreeSet<u32> = numbers.iter().copied().collect();
        let given = self.given_by.remove(what).unwrap_or_default();
        self.holds(&format!("{what} gives the numbers {given:?}, not {wanted:?}"), given == wanted);
    }

    /// The last line of a run and its exit status.
    pub fn verdict(&self) -> ExitCode {
        println!("{} passed, {} failed", self.passed, self.failed);
        if self.failed == 0 {
            ExitCode::SUCCESS
        } else {
            ExitCode::FAILURE
        }
    }
}
