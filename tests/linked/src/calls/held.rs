//! One linked call beside the second planner's, on the same contents.

use crate::contender::Called;
use planner::places::Record;
use planner::runs::Tally;
use planner::Outcome;

/// Elements in front of and behind what is lent, which no call may touch.
pub const MARGIN: usize = 16;

/// What a call reads besides the file.
pub enum Lent<'a> {
    Records(&'a [Record]),
    Bytes(&'a [u8]),
}

/// A copy of what a call reads, to see afterwards that it is as before.
#[derive(PartialEq)]
enum Copied {
    Records(Vec<Record>),
    Bytes(Vec<u8>),
}

/// What a buffer is made of.
pub trait Element: Copy + PartialEq {
    /// As a failing case is saved; so many elements are a margin in front of what was lent.
    fn shown(elements: &[Self], margin: usize) -> Vec<u8>;
}

impl Element for u8 {
    fn shown(elements: &[u8], _: usize) -> Vec<u8> {
        elements.to_vec()
    }
}

/// Lines of text, for the eye and for `diff`: a record's number among those lent, below 0 in front of them, and its fields.
impl Element for Record {
    fn shown(elements: &[Record], margin: usize) -> Vec<u8> {
        let mut text = "number\tdepth\tparent\tchildren\tsteps\tjobs\n".to_string();
        for (place, Record { depth, parent, children, steps, jobs }) in elements.iter().enumerate() {
            let number = place as isize - margin as isize;
            text += &format!("{number}\t{depth}\t{parent}\t{children}\t{steps:#x}\t{jobs:#x}\n");
        }
        text.into_bytes()
    }
}

impl Lent<'_> {
    fn copied(&self) -> Copied {
        match self {
            Lent::Records(records) => Copied::Records(records.to_vec()),
            Lent::Bytes(bytes) => Copied::Bytes(bytes.to_vec()),
        }
    }
}

impl Copied {
    fn shown(&self) -> Vec<u8> {
        match self {
            Copied::Records(records) => Record::shown(records, 0),
            Copied::Bytes(bytes) => u8::shown(bytes, 0),
        }
    }
}

/// A call with what it is lent for reading, and its lengths and other numbers by name.
pub struct Call<'a> {
    pub name: &'static str,
    pub file: &'a [u8],
    pub numbers: &'a [(&'a str, usize)],
    pub lent: &'a [(&'a str, Lent<'a>)],
}

impl Call<'_> {
    /// The linked call and the second planner's on the same contents, of which all but the margins are lent for writing.
    pub fn hold<T: Element, const N: usize>(
        &self,
        tally: &mut Tally,
        contents: &[T],
        linked: impl FnOnce(&mut [T]) -> Called<N>,
        second: impl FnOnce(&mut [T]) -> Outcome<[usize; N]>,
    ) {
        let lent = MARGIN..contents.len() - MARGIN;
        let (mut after, mut wanted) = (contents.to_vec(), contents.to_vec());
        let before = self.inputs();
        let called = linked(&mut after[lent.clone()]);
        let inputs_after = self.inputs();
        let expected = second(&mut wanted[lent]);
        let number = expected.map_or_else(|refused| refused.0, |_| 0);
        tally.given_by(self.name, number);
        let inputs_kept = inputs_after == before;
        if called.kept && inputs_kept && after == wanted && called.outcome == expected {
            return tally.case(self.name, number, true, &[]);
        }
        let numbers: String = self.numbers.iter().map(|(name, number)| format!(", {name} {number}")).collect();
        let account = format!(
            "{}{numbers}: {called:?}, expected {expected:?}, buffers the same: {}, inputs as before: {inputs_kept}\n",
            self.name,
            after == wanted
        );
        let mut files = vec![("call".to_string(), account.into_bytes())];
        files.extend(shown_inputs(&before, &inputs_after));
        let buffers = [("buffer-before", contents), ("buffer-after", &after), ("buffer-expected", &wanted)];
        files.extend(buffers.map(|(name, contents)| (name.to_string(), T::shown(contents, MARGIN))));
        let files: Vec<(&str, &[u8])> = files.iter().map(|(name, bytes)| (name.as_str(), &bytes[..])).collect();
        tally.case(&format!("linked call {}", self.name), number, false, &files);
    }

    /// All that is lent for reading. Never part of its caller, which could take it that a call leaves this alone.
    #[inline(never)]
    fn inputs(&self) -> Vec<(&str, Copied)> {
        let file = ("table.tab", Copied::Bytes(self.file.to_vec()));
        std::iter::once(file).chain(self.lent.iter().map(|(name, lent)| (*name, lent.copied()))).collect()
    }
}

/// What was lent for reading as it was before, and what of it has changed as it is afterwards.
fn shown_inputs(before: &[(&str, Copied)], after: &[(&str, Copied)]) -> Vec<(String, Vec<u8>)> {
    let changed = after.iter().zip(before).filter(|(after, before)| after != before).map(|(after, _)| after);
    let before = before.iter().map(|(name, input)| (name.to_string(), input.shown()));
    before.chain(changed.map(|(name, input)| (format!("{name}-after"), input.shown()))).collect()
}

#[cfg(test)]
mod tests {
    use super::*;
    use planner::runs::scratch;
    use planner::Refused;

    fn passes(linked: impl FnOnce(&mut [u8]) -> Called<1>, second: impl FnOnce(&mut [u8]) -> Outcome<[usize; 1]>) -> bool {
        let folder = scratch::failed();
        let mut tally = Tally::new(folder.clone());
        let call = Call { name: "any", file: b"", numbers: &[], lent: &[] };
        call.hold(&mut tally, &[9; 40], linked, second);
        let _ = std::fs::remove_dir_all(folder);
        tally.failed == 0
    }

    fn writes(byte: u8) -> impl FnOnce(&mut [u8]) {
        move |lent| lent[0] = byte
    }

    /// A comparison that passes whatever comes back would hold nothing.
    #[test]
    fn another_outcome_or_other_contents_fail() {
        let called = |outcome, kept| Called { outcome, kept };
        assert!(passes(|lent| (writes(1)(lent), called(Ok([3]), true)).1, |lent| (writes(1)(lent), Ok([3])).1));
        assert!(!passes(|lent| (writes(2)(lent), called(Ok([3]), true)).1, |lent| (writes(1)(lent), Ok([3])).1));
        assert!(!passes(|_| called(Ok([3]), true), |_| Ok([4])));
        assert!(!passes(|_| called(Ok([3]), true), |_| Err(Refused(1))));
        assert!(!passes(|_| called(Err(Refused(2)), true), |_| Err(Refused(1))));
        assert!(!passes(|_| called(Err(Refused(1)), false), |_| Err(Refused(1))));
    }

    #[test]
    fn records_are_shown_by_number() {
        let shown = Record::shown(&[Record::of([7; 5]), Record::of([1, 0, 0, 16, 2])], 1);
        assert_eq!(
            String::from_utf8_lossy(&shown),
            "number\tdepth\tparent\tchildren\tsteps\tjobs\n-1\t7\t7\t7\t0x7\t0x7\n0\t1\t0\t0\t0x10\t0x2\n"
        );
    }
}
