//! How the calls of a run fared, and what occurred among them, so that nothing is left out unnoticed.

use super::areas::Side;
use independent::codes::sizes;
use std::collections::{BTreeMap, BTreeSet};
use std::fmt::{self, Display, Formatter};

/// So many calls that fail are shown.
const SHOWN: usize = 10;

/// So many calls has a run at least: more than the inputs make that are the same in each run.
const LEAST: usize = 500_000;

#[derive(Clone, Copy, PartialEq, Eq, PartialOrd, Ord, Debug)]
pub enum Call {
    ReadSheet,
    WriteSheet,
    Canonical,
    Syndrome,
    Decode,
    Correct,
    Report,
}

impl Call {
    const ALL: [Call; 7] = [
        Call::ReadSheet,
        Call::WriteSheet,
        Call::Canonical,
        Call::Syndrome,
        Call::Decode,
        Call::Correct,
        Call::Report,
    ];

    /// The numbers that it can answer.
    fn numbers(self) -> Vec<u32> {
        match self {
            Call::ReadSheet => (0..=14).collect(),
            Call::WriteSheet | Call::Syndrome => vec![0, 15, 17],
            Call::Canonical => vec![0, 6, 7, 8, 15, 17],
            Call::Decode => vec![0, 15, 16, 17, 255],
            Call::Correct => vec![0, 15, 16, 255],
            Call::Report => vec![0, 17],
        }
    }

    fn reads(self) -> bool {
        matches!(self, Call::ReadSheet | Call::Decode | Call::Report)
    }

    fn writes(self) -> bool {
        !matches!(self, Call::ReadSheet | Call::Correct)
    }
}

/// The numbers that the text of a report can have; 0 stands for that of an admitted code.
fn numbers_of_texts() -> Vec<u32> {
    (0..=14).chain([16]).collect()
}

/// How long an output buffer is, beside what the answer needs.
#[derive(Clone, Copy, PartialEq, Eq, PartialOrd, Ord, Debug)]
pub enum Room {
    Exact,
    OneShort,
    Long,
    Empty,
    /// no buffer at all
    Null,
}

impl Room {
    pub const ALL: [Room; 5] = [
        Room::Exact,
        Room::OneShort,
        Room::Long,
        Room::Empty,
        Room::Null,
    ];
}

/// How a call is made.
#[derive(Clone, Copy, PartialEq, Eq, PartialOrd, Ord, Debug)]
pub enum Way {
    /// by the safe wrapper
    Wrapped,
    /// with all that it reads by value
    ByValue,
    /// with bytes to read that lie against a page
    Lying(Side),
    /// with none, and no place where they would be
    Nowhere,
    /// with such a buffer to write into, that lies against a page
    Into(Room, Side),
}

impl Way {
    /// Those that a call is to be made in.
    fn all(call: Call) -> Vec<Way> {
        let sides = [Side::Before, Side::Behind];
        let mut ways = vec![Way::Wrapped];
        if call == Call::Correct {
            ways.push(Way::ByValue);
        }
        if call.reads() {
            ways.extend(sides.map(Way::Lying));
            ways.push(Way::Nowhere);
        }
        if call.writes() {
            let rooms = Room::ALL.into_iter();
            ways.extend(rooms.flat_map(|room| sides.map(|side| Way::Into(room, side))));
        }
        ways
    }
}

#[derive(Default)]
pub struct Tally {
    passed: usize,
    failed: usize,
    numbers: BTreeMap<(Call, u32), usize>,
    texts: BTreeMap<u32, usize>,
    ways: BTreeSet<(Call, Way)>,
    /// n and r of codes that were admitted
    sizes: BTreeSet<(usize, usize)>,
    /// of corrections
    weights: BTreeSet<u32>,
}

impl Tally {
    /// Takes a call in. What is wrong with it is shown, unless that is nothing or enough is shown.
    pub fn judge(&mut self, call: Call, way: Way, passes: bool, shown: impl FnOnce() -> String) {
        self.ways.insert((call, way));
        if passes {
            self.passed += 1;
            return;
        }
        self.failed += 1;
        if self.failed <= SHOWN {
            println!("--- {call:?}, {way:?}\n{}", shown());
        }
    }

    pub fn saw_way(&mut self, call: Call, way: Way) {
        self.ways.insert((call, way));
    }

    pub fn saw_number(&mut self, call: Call, number: u32) {
        *self.numbers.entry((call, number)).or_default() += 1;
    }

    pub fn saw_text(&mut self, number: u32) {
        *self.texts.entry(number).or_default() += 1;
    }

    pub fn saw_size(&mut self, size: (usize, usize)) {
        self.sizes.insert(size);
    }

    pub fn saw_weight(&mut self, weight: u32) {
        self.weights.insert(weight);
    }

    pub fn passed(&self) -> usize {
        self.passed
    }

    pub fn failed(&self) -> usize {
        self.failed
    }

    /// What every run has to have, and this one has not.
    pub fn missing(&self) -> Vec<String> {
        let mut missing = Vec::new();
        for call in Call::ALL {
            let mut numbers = call.numbers();
            numbers.retain(|&number| !self.numbers.contains_key(&(call, number)));
            missing.extend(
                numbers
                    .iter()
                    .map(|number| format!("{call:?} with {number}")),
            );
            let mut ways = Way::all(call);
            ways.retain(|&way| !self.ways.contains(&(call, way)));
            missing.extend(ways.iter().map(|way| format!("{call:?}, {way:?}")));
        }
        let mut texts = numbers_of_texts();
        texts.retain(|number| !self.texts.contains_key(number));
        missing.extend(texts.iter().map(|number| format!("a report of {number}")));
        let sizes = sizes().filter(|size| !self.sizes.contains(size));
        missing.extend(sizes.map(|(n, r)| format!("a code of n={n} and r={r}")));
        let weights = (0..=3).filter(|weight| !self.weights.contains(weight));
        missing.extend(weights.map(|weight| format!("a correction of weight {weight}")));
        if self.passed + self.failed < LEAST {
            missing.push(format!("so many as {LEAST} calls"));
        }
        missing
    }
}

/// A line for each number, with how often each call answered it, and how often a report tells of it.
impl Display for Tally {
    fn fmt(&self, to: &mut Formatter) -> fmt::Result {
        let names = Call::ALL.map(|call| format!("{:>11}", format!("{call:?}")));
        write!(to, "number{}   in reports", names.concat())?;
        for number in (0..=17).chain([255]) {
            write!(to, "\n{number:>6}")?;
            for call in Call::ALL {
                let count = self.numbers.get(&(call, number));
                write!(to, "{:>11}", shown(call.numbers().contains(&number), count))?;
            }
            let count = self.texts.get(&number);
            write!(
                to,
                "{:>13}",
                shown(numbers_of_texts().contains(&number), count)
            )?;
        }
        Ok(())
    }
}

/// A number that cannot be answered has no count, unless it was.
fn shown(possible: bool, count: Option<&usize>) -> String {
    match (possible, count) {
        (false, None) => "-".to_string(),
        (_, count) => count.unwrap_or(&0).to_string(),
    }
}

#[cfg(test)]
mod tests {
    use super::*;

    /// All that a run has to have.
    fn whole() -> Tally {
        let mut tally = Tally::default();
        for call in Call::ALL {
            for number in call.numbers() {
                tally.saw_number(call, number);
            }
            for way in Way::all(call) {
                tally.judge(call, way, true, String::new);
            }
        }
        for number in numbers_of_texts() {
            tally.saw_text(number);
        }
        sizes().for_each(|size| tally.saw_size(size));
        (0..=3).for_each(|weight| tally.saw_weight(weight));
        tally.passed = LEAST;
        tally
    }

    #[test]
    fn what_is_missing_is_told() {
        assert_eq!(whole().missing(), [""; 0]);
        let without = |change: fn(&mut Tally) -> bool| {
            let mut tally = whole();
            assert!(change(&mut tally), "it was there");
            tally.missing()
        };
        let number = without(|tally| tally.numbers.remove(&(Call::Decode, 255)).is_some());
        assert_eq!(number, ["Decode with 255"]);
        let short = |tally: &mut Tally| {
            let way = Way::Into(Room::OneShort, Side::Before);
            tally.ways.remove(&(Call::Report, way))
        };
        assert_eq!(without(short), ["Report, Into(OneShort, Before)"]);
        let text = without(|tally| tally.texts.remove(&16).is_some());
        assert_eq!(text, ["a report of 16"]);
        let size = without(|tally| tally.sizes.remove(&(23, 22)));
        assert_eq!(size, ["a code of n=23 and r=22"]);
        let weight = without(|tally| tally.weights.remove(&3));
        assert_eq!(weight, ["a correction of weight 3"]);
        let mut fewer = whole();
        fewer.passed -= 1;
        assert_eq!(fewer.missing(), ["so many as 500000 calls"]);
    }

    #[test]
    fn calls_that_fail_are_counted_and_some_are_shown() {
        let mut tally = Tally::default();
        let mut shown = 0;
        for _ in 0..SHOWN + 5 {
            tally.judge(Call::Correct, Way::ByValue, false, || {
                shown += 1;
                String::new()
            });
        }
        tally.judge(Call::Correct, Way::ByValue, true, || panic!("shown"));
        assert_eq!((tally.passed, tally.failed, shown), (1, SHOWN + 5, SHOWN));
    }

    #[test]
    fn the_table_has_a_count_for_each_number_that_can_be() {
        let table = whole().to_string();
        let lines: Vec<&str> = table.lines().collect();
        assert_eq!(lines.len(), 1 + 19);
        let words = |line: usize| lines[line].split_whitespace().collect::<Vec<_>>();
        assert_eq!(words(1), ["0", "1", "1", "1", "1", "1", "1", "1", "1"]);
        assert_eq!(words(17), ["16", "-", "-", "-", "-", "1", "1", "-", "1"]);
        assert_eq!(words(19), ["255", "-", "-", "-", "-", "1", "1", "-", "-"]);
    }
}
