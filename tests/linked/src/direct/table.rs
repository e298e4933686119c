//! The table file, in one pass: a name is looked up as soon as it is read, since in a table that is accepted it was declared before.

use super::names::{first_name, Key, Names};
use planner::{question, Outcome, Refused};

pub const MOST_FACTS: usize = 64;
pub const MOST_STEPS: usize = 64;
pub const MOST_JOBS: usize = 64;
pub const MOST_METHODS: usize = 128;
pub const LONGEST_BODY: usize = 8;

/// A task as a number: the steps, behind them the jobs.
pub type Task = u8;
pub const FIRST_JOB: Task = MOST_STEPS as Task;

/// A name's code: the tasks, behind them the facts.
const FIRST_FACT: u8 = FIRST_JOB + MOST_JOBS as u8;

pub struct Step<'a> {
    pub name: &'a [u8],
    pub needs: u64,
    pub sets: u64,
    /// Those that are not set as well.
    pub clears: u64,
    /// How many facts the three sets have.
    pub effects: u32,
}

pub struct Job<'a> {
    pub name: &'a [u8],
    pub methods: u128,
    pub method_count: u32,
    pub longest: usize,
    /// How many methods have a body of each length, a byte for each.
    pub lengths: u128,
    /// The steps and the jobs at each place of a body.
    pub holds: [Holding; LONGEST_BODY],
}

#[derive(Clone, Copy, Default)]
pub struct Holding {
    pub steps: u64,
    pub jobs: u64,
}

impl Holding {
    pub fn unite(&mut self, other: Holding) {
        self.steps |= other.steps;
        self.jobs |= other.jobs;
    }

    fn insert(&mut self, task: Task) {
        match task.checked_sub(FIRST_JOB) {
            None => self.steps |= 1 << task,
            Some(job) => self.jobs |= 1 << job,
        }
    }
}

pub struct Method {
    pub job: u8,
    pub length: u8,
    pub tasks: [Task; LONGEST_BODY],
}

impl Method {
    pub fn body(&self) -> &[Task] {
        &self.tasks[..usize::from(self.length)]
    }
}

pub struct Table<'a> {
    pub facts: usize,
    pub steps: Vec<Step<'a>>,
    pub jobs: Vec<Job<'a>>,
    pub methods: Vec<Method>,
    pub start: u64,
    pub root: usize,
    pub depth: usize,
}

pub fn read(file: &[u8]) -> Outcome<Table<'_>> {
    question(2, file.len() <= 65_536 && file.last() == Some(&b'\n'))?;
    let mut reader = Reader::new(file);
    while reader.at < file.len() {
        reader.line().ok_or(Refused(3))?;
    }
    if !reader.ends_in_order() {
        reader.unmet(4);
    }
    question(reader.unmet, reader.unmet == NONE)?;
    Ok(reader.table)
}

/// A number past every question's.
const NONE: u32 = u32::MAX;

struct Reader<'a> {
    file: &'a [u8],
    at: usize,
    /// The last line's letter as its place in the order, and how many lines of the last two letters there were.
    order: u8,
    starts: usize,
    roots: usize,
    /// The first question of 4 to 7 that is not met so far.
    unmet: u32,
    names: Names,
    table: Table<'a>,
}

impl<'a> Reader<'a> {
    fn new(file: &'a [u8]) -> Reader<'a> {
        let table = Table { facts: 0, steps: Vec::new(), jobs: Vec::new(), methods: Vec::new(), start: 0, root: 0, depth: 0 };
        Reader { file, at: 0, order: 0, starts: 0, roots: 0, unmet: NONE, names: Names::new(), table }
    }

    fn unmet(&mut self, question: u32) {
        self.unmet = self.unmet.min(question);
    }

    fn ends_in_order(&self) -> bool {
        self.starts == 1 && self.roots == 1
    }

    // Lines. Nothing where the line is not formed.

    fn line(&mut self) -> Option<()> {
        let letter = self.file[self.at];
        self.at += 1;
        self.take(b'\t')?;
        match letter {
            b'F' => self.in_order(0).fact(),
            b'S' => self.in_order(1).step(),
            b'T' => self.in_order(2).job(),
            b'M' => self.in_order(3).method(),
            b'I' => self.in_order(4).start(),
            b'R' => self.in_order(5).root(),
            _ => None,
        }
    }

    fn in_order(&mut self, order: u8) -> &mut Reader<'a> {
        if order < self.order {
            self.unmet(4);
        }
        self.order = order;
        self
    }

    fn fact(&mut self) -> Option<()> {
        let key = self.name()?;
        self.take(b'\n')?;
        if self.table.facts < MOST_FACTS {
            self.declare(key, FIRST_FACT + self.table.facts as u8);
            self.table.facts += 1;
        } else {
            self.unmet(5);
        }
        Some(())
    }

    fn step(&mut self) -> Option<()> {
        let (key, name) = self.shown_name()?;
        self.take(b'\t')?;
        let needs = self.facts()?;
        self.take(b'\t')?;
        let sets = self.facts()?;
        self.take(b'\t')?;
        let clears = self.facts()? & !sets;
        self.take(b'\n')?;
        let number = self.table.steps.len();
        if number < MOST_STEPS {
            self.declare(key, number as u8);
            let effects = needs.count_ones() + sets.count_ones() + clears.count_ones();
            self.table.steps.push(Step { name, needs, sets, clears, effects });
        } else {
            self.unmet(5);
        }
        Some(())
    }

    fn job(&mut self) -> Option<()> {
        let (key, name) = self.shown_name()?;
        self.take(b'\n')?;
        let number = self.table.jobs.len();
        if number < MOST_JOBS {
            self.declare(key, FIRST_JOB + number as u8);
            self.table.jobs.push(Job {
                name,
                methods: 0,
                method_count: 0,
                longest: 0,
                lengths: 0,
                holds: [Holding::default(); LONGEST_BODY],
            });
        } else {
            self.unmet(5);
        }
        Some(())
    }

    fn method(&mut self) -> Option<()> {
        let job = self.used_job()?;
        self.take(b'\t')?;
        let (length, tasks) = self.body()?;
        self.take(b'\n')?;
        let number = self.table.methods.len();
        if number == MOST_METHODS {
            self.unmet(5);
        } else if let Some(own) = self.table.jobs.get_mut(job) {
            own.methods |= 1 << number;
            own.method_count += 1;
            own.longest = own.longest.max(length);
            own.lengths += 1 << (8 * length);
            tasks[..length].iter().zip(&mut own.holds).for_each(|(task, holding)| holding.insert(*task));
            self.table.methods.push(Method { job: job as u8, length: length as u8, tasks });
        }
        Some(())
    }

    fn start(&mut self) -> Option<()> {
        self.starts += 1;
        self.table.start = self.facts()?;
        self.take(b'\n')
    }

    fn root(&mut self) -> Option<()> {
        self.roots += 1;
        self.table.root = self.used_job()?;
        self.take(b'\t')?;
        let digit = self.file[self.at];
        self.at += 1;
        self.table.depth = usize::from(digit.wrapping_sub(b'0'));
        (1..=8).contains(&self.table.depth).then_some(())?;
        self.take(b'\n')
    }

    // Fields. A name ends before the file's last byte, which is LF, so that there is a byte behind it.

    #[inline]
    fn take(&mut self, byte: u8) -> Option<()> {
        let found = self.file.get(self.at) == Some(&byte);
        self.at += 1;
        found.then_some(())
    }

    #[inline]
    fn window(&self) -> [u8; 16] {
        let rest = &self.file[self.at..];
        match rest.first_chunk() {
            Some(window) => *window,
            None => {
                let mut window = [0; 16];
                window[..rest.len()].copy_from_slice(rest);
                window
            }
        }
    }

    #[inline(always)]
    fn name(&mut self) -> Option<Key> {
        let (key, length) = first_name(self.window())?;
        self.at += length;
        Some(key)
    }

    /// A name that is shown later, with where it stands.
    fn shown_name(&mut self) -> Option<(Key, &'a [u8])> {
        let begun = self.at;
        let key = self.name()?;
        Some((key, &self.file[begun..self.at]))
    }

    fn declare(&mut self, key: Key, code: u8) {
        if !self.names.insert(key, code) {
            self.unmet(6);
        }
    }

    /// A used name's code.
    #[inline(always)]
    fn used(&mut self) -> Option<Option<u8>> {
        let key = self.name()?;
        Some(self.names.get(key))
    }

    fn used_job(&mut self) -> Option<usize> {
        let code = self.used()?;
        let job = code.filter(|code| (FIRST_JOB..FIRST_FACT).contains(code));
        if job.is_none() {
            self.unmet(7);
        }
        Some(job.map_or(MOST_JOBS, |code| usize::from(code - FIRST_JOB)))
    }

    fn facts(&mut self) -> Option<u64> {
        let mut set = 0;
        if self.is_empty_list() {
            return Some(set);
        }
        loop {
            let fact = self.used()?.and_then(|code| code.checked_sub(FIRST_FACT));
            match fact.map(|fact| 1 << fact).filter(|member| set & member == 0) {
                Some(member) => set |= member,
                None => self.unmet(7),
            }
            if !self.goes_on() {
                return Some(set);
            }
        }
    }

    /// The first tasks of a body, as many as there may be, and their number.
    fn body(&mut self) -> Option<(usize, [Task; LONGEST_BODY])> {
        let (mut length, mut tasks) = (0, [0; LONGEST_BODY]);
        if self.is_empty_list() {
            return Some((length, tasks));
        }
        loop {
            let task = self.used()?.filter(|code| *code < FIRST_FACT);
            if task.is_none() {
                self.unmet(7);
            }
            match tasks.get_mut(length) {
                Some(place) => {
                    *place = task.unwrap_or(0);
                    length += 1;
                }
                None => self.unmet(5),
            }
            if !self.goes_on() {
                return Some((length, tasks));
            }
        }
    }

    /// A lone hyphen; what follows it is looked at by the caller.
    fn is_empty_list(&mut self) -> bool {
        self.passes(b'-')
    }

    fn goes_on(&mut self) -> bool {
        self.passes(b',')
    }

    /// Goes past the byte where it is the next one.
    #[inline]
    fn passes(&mut self, byte: u8) -> bool {
        if self.file[self.at] != byte {
            return false;
        }
        self.at += 1;
        true
    }
}
