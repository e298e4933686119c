//! Cases through the program `stored`, thousands in one process: it takes an index of cases in the working directory, and what it prints is
//! held to the second planner.

use super::kinds::{number, printed, Kind};
use super::programs::Programs;
use super::Tally;
use crate::calls::{check, LISTING_BYTES, TEXT_BYTES};
use crate::make::cases::{answer_case, each_question, table_case, AnswerCase};
use crate::outside::run_with_file;
use crate::random::Random;
use std::path::{Path, PathBuf};
use std::rc::Rc;

/// How long an index the program takes.
pub const INDEX_ROOM: usize = 262_144;

/// So long that a batch has some thousands of cases.
const MOST_INDEX_BYTES: usize = 60_000;

/// More clauses are not written out, but told by their checksum.
const MOST_CLAUSES_WRITTEN: usize = 2_000;

/// A file by its name.
pub type File = (String, Rc<Vec<u8>>);

/// A line of an index, what is to be printed for it, and the files that it names.
pub struct Case {
    pub kind: Kind,
    pub line: String,
    pub expected: Vec<u8>,
    pub number: u32,
    pub files: Vec<File>,
}

impl Case {
    pub fn new(kind: Kind, table: File, answer: Option<File>, numbers: &[usize]) -> Case {
        let mut fields = vec![kind.word().to_string(), table.0.clone()];
        if answer.is_some() || !numbers.is_empty() {
            fields.push(answer.as_ref().map_or("-".to_string(), |answer| answer.0.clone()));
        }
        fields.extend(numbers.iter().map(usize::to_string));
        let line = fields.join("\t");
        let at = |place: usize| numbers.get(place).copied().unwrap_or(0);
        let reply = answer.as_ref().map_or(&[][..], |answer| &answer.1);
        let text = printed(kind, &table.1, reply, [at(0), at(1)]);
        let expected = format!("{line}\n{text}").into_bytes();
        Case { kind, line, expected, number: number(kind, &table.1, &text), files: [table].into_iter().chain(answer).collect() }
    }
}

/// Cases that wait for one run of the program.
pub struct Batch {
    program: PathBuf,
    files: usize,
    cases: Vec<Case>,
    index_bytes: usize,
}

impl Batch {
    pub fn new(program: &Path) -> Batch {
        Batch { program: program.to_path_buf(), files: 0, cases: Vec::new(), index_bytes: 0 }
    }

    /// A file under a new name.
    pub fn file(&mut self, bytes: &[u8]) -> File {
        self.files += 1;
        (format!("f{}", self.files), Rc::new(bytes.to_vec()))
    }

    pub fn add(&mut self, kind: Kind, table: &File, answer: Option<&File>, numbers: &[usize]) {
        let case = Case::new(kind, table.clone(), answer.cloned(), numbers);
        self.index_bytes += case.line.len() + 1;
        self.cases.push(case);
    }

    pub fn is_full(&self) -> bool {
        self.index_bytes > MOST_INDEX_BYTES
    }

    /// Writes what waits into a folder as a crate stores it: `data/` with the index and the files, and `stdout`.
    pub fn store(&self, folder: &Path) -> std::io::Result<()> {
        let data = folder.join("data");
        std::fs::create_dir_all(&data)?;
        self.write_files(&data)?;
        std::fs::write(folder.join("stdout"), expected(&self.cases))
    }

    fn write_files(&self, folder: &Path) -> std::io::Result<()> {
        for (name, bytes) in self.cases.iter().flat_map(|case| &case.files) {
            std::fs::write(folder.join(name), &bytes[..])?;
        }
        let index: String = self.cases.iter().map(|case| case.line.clone() + "\n").collect();
        assert!(index.len() < INDEX_ROOM, "an index that the program takes whole");
        std::fs::write(folder.join("index"), index)
    }

    /// Runs what waits and counts it; hands back what was printed.
    pub fn run(&mut self, tally: &mut Tally) -> Vec<u8> {
        self.write_files(Path::new(".")).expect("the scratch folder takes files");
        let wrote = run_with_file(&self.program, &[], Path::new("/dev/null")).expect("the program runs");
        let output = [wrote.output, wrote.error].concat();
        count(tally, &self.cases, &output);
        *self = Batch::new(&self.program);
        output
    }
}

/// All that is to be printed for these cases.
pub fn expected(cases: &[Case]) -> Vec<u8> {
    cases.iter().flat_map(|case| case.expected.clone()).collect()
}

/// Counts cases by what was printed for all of them.
pub fn count(tally: &mut Tally, cases: &[Case], output: &[u8]) {
    let mut rest = output;
    for (place, case) in cases.iter().enumerate() {
        let end = match cases.get(place + 1) {
            Some(_) if rest.starts_with(&case.expected) => case.expected.len(),
            Some(next) => end_of_case(rest, &next.line),
            None => rest.len(),
        };
        let (printed, behind) = rest.split_at(end);
        rest = behind;
        count_case(tally, case, printed);
    }
}

fn count_case(tally: &mut Tally, case: &Case, printed: &[u8]) {
    let mut files: Vec<(&str, &[u8])> = case.files.iter().map(|(name, bytes)| (name.as_str(), &bytes[..])).collect();
    files.extend([("index", case.line.as_bytes()), ("expected", &case.expected), ("written", printed)]);
    tally.given_by(case.kind.word(), case.number);
    tally.case(&case.line, case.number, printed == case.expected, &files);
}

/// Where a case's output ends: before the next case's line, or at the end.
fn end_of_case(output: &[u8], next: &str) -> usize {
    let mark = [b"\n", next.as_bytes()].concat();
    output.windows(mark.len()).position(|window| window == mark).map_or(output.len(), |place| place + 1)
}

/// The cases of each kind come to every question that can turn one down, and to none.
pub fn every_number(tally: &mut Tally) {
    for kind in Kind::ALL {
        tally.gives(kind.word(), &kind.numbers());
    }
}

// Random cases

pub fn compare(tally: &mut Tally, random: &mut Random, programs: &Programs, cases: usize) {
    let mut counted = 0;
    let mut batch = Batch::new(&programs.stored);
    for case in each_question() {
        counted += add_table_lines(random, &mut batch, &case.table) + add_answer_lines(random, &mut batch, &case);
    }
    while counted < cases {
        let (table, answer) = (table_case(random), answer_case(random));
        counted += add_table_lines(random, &mut batch, &table.table) + add_answer_lines(random, &mut batch, &answer);
        if batch.is_full() || counted >= cases {
            batch.run(tally);
        }
    }
    tally.print_given("what is below the programs");
    every_number(tally);
}

/// Lines of every kind that wants no answer; how many.
pub fn add_table_lines(random: &mut Random, batch: &mut Batch, file: &[u8]) -> usize {
    let table = batch.file(file);
    let before = batch.cases.len();
    let (_, _, clauses) = check(file).unwrap_or((1, 1, 9));
    batch.add(Kind::Read, &table, None, &[]);
    batch.add(Kind::Check, &table, None, &[]);
    let lines = [clauses, clauses + 1, random.below(clauses + 1), random.below(clauses + 1), usize::MAX - random.below(3)];
    batch.add(Kind::Text, &table, None, &[0, TEXT_BYTES]);
    for line in lines {
        let length = *random.pick(&[0, 1, 1_023, TEXT_BYTES, TEXT_BYTES, 1_025, 1_026, 1_100, 2_048, 65_536]);
        batch.add(Kind::Text, &table, None, &[line, length]);
    }
    let length = if clauses > 10_000 { 65_536 } else { *random.pick(&[TEXT_BYTES, 1_025, 1_060, 1_500, 4_096, 65_536]) };
    batch.add(Kind::Whole, &table, None, &[length]);
    if clauses <= MOST_CLAUSES_WRITTEN {
        let room = *random.pick(&[0, TEXT_BYTES, 1_025, 1_060, 1_500, 4_096, 1_048_576, usize::MAX]);
        batch.add(Kind::Formula, &table, None, &[room]);
    }
    batch.cases.len() - before
}

/// Lines of the kinds that want an answer; how many.
pub fn add_answer_lines(random: &mut Random, batch: &mut Batch, case: &AnswerCase) -> usize {
    let (table, answer) = (batch.file(&case.table), batch.file(&case.answer));
    let before = batch.cases.len();
    batch.add(Kind::Procedure, &table, Some(&answer), &[]);
    for length in [LISTING_BYTES, *random.pick(&[0, LISTING_BYTES - 1, LISTING_BYTES + 1, LISTING_BYTES + 24, LISTING_BYTES + 25])] {
        batch.add(Kind::List, &table, Some(&answer), &[length]);
    }
    batch.cases.len() - before
}
