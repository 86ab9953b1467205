//! What occurred in the reports of a run, so that no kind of report is left out unnoticed.

use crate::codes::sizes;
use crate::sheet::{letters, weight};
use std::collections::{BTreeMap, BTreeSet};
use std::fmt::{Display, Formatter, Result};

/// The numbers that a report can have.
fn numbers() -> impl Iterator<Item = usize> {
    (1..=14).chain([16])
}

/// A correction is to have each weight up to this.
const WEIGHT: usize = 2;

/// How often each of these occurred.
#[derive(Default)]
pub struct Occurred {
    refusals: BTreeMap<usize, usize>,
    /// n and k of a code that is not refused
    sizes: BTreeSet<(usize, usize)>,
    admitted: usize,
    /// corrections by their weights
    corrections: BTreeMap<usize, usize>,
    without_correction: usize,
    /// errors that the code corrects
    errors: usize,
}

impl Occurred {
    /// Takes a report in, and how many errors are known whose corrections it has.
    pub fn see(&mut self, report: &[u8], errors: usize) {
        let lines = report.split(|&byte| byte == b'\n');
        let value = |key: &[u8]| {
            let value = lines.clone().find_map(|line| line.strip_prefix(key))?;
            std::str::from_utf8(value).ok()?.parse().ok()
        };
        if let Some(number) = value(b"r=") {
            *self.refusals.entry(number).or_default() += 1;
        }
        if let (Some(n), Some(k)) = (value(b"n="), value(b"k=")) {
            self.sizes.insert((n, k));
            self.admitted += 1;
        }
        self.errors += errors;
        for shown in lines.filter_map(|line| line.strip_prefix(b"c=")) {
            match letters(shown, shown.len()) {
                Some(letters) => *self.corrections.entry(weight(&letters)).or_default() += 1,
                None => self.without_correction += 1,
            }
        }
    }

    pub fn add(&mut self, other: Occurred) {
        for (number, count) in other.refusals {
            *self.refusals.entry(number).or_default() += count;
        }
        for (weight, count) in other.corrections {
            *self.corrections.entry(weight).or_default() += count;
        }
        self.sizes.extend(other.sizes);
        self.admitted += other.admitted;
        self.without_correction += other.without_correction;
        self.errors += other.errors;
    }

    /// What every run has to have, and this one has not.
    pub fn missing(&self) -> Vec<String> {
        let refusals = numbers().filter(|number| !self.refusals.contains_key(number));
        let refusals = refusals.map(|number| format!("r={number}"));
        let codes = sizes().map(|(n, r)| (n, n - r));
        let codes = codes.filter(|size| !self.sizes.contains(size));
        let codes = codes.map(|(n, k)| format!("a code of n={n} and k={k}"));
        let weights = (0..=WEIGHT).filter(|weight| !self.corrections.contains_key(weight));
        let weights = weights.map(|weight| format!("a correction of weight {weight}"));
        let none = (self.without_correction == 0).then(|| "c=none".to_string());
        let errors = (self.errors == 0).then(|| "an error that is corrected".to_string());
        let missing = refusals.chain(codes).chain(weights);
        missing.chain(none).chain(errors).collect()
    }
}

impl Display for Occurred {
    fn fmt(&self, to: &mut Formatter) -> Result {
        let refusals = self.refusals.iter();
        let refusals: String = refusals
            .map(|(number, count)| format!(" r={number} {count} times,"))
            .collect();
        let corrections = self.corrections.iter();
        let corrections: String = corrections
            .map(|(weight, count)| format!(" {count} of weight {weight},"))
            .collect();
        write!(
            to,
            "{} codes of {} sizes,{refusals}\nand corrections:{corrections} {} none, {} of errors that have to have one",
            self.admitted,
            self.sizes.len(),
            self.without_correction,
            self.errors
        )
    }
}

#[cfg(test)]
mod tests {
    use super::*;

    #[test]
    fn what_is_missing_is_told() {
        let mut occurred = Occurred::default();
        assert_eq!(occurred.missing().len(), 15 + 276 + 3 + 2);
        for (n, r) in sizes() {
            let numbers = format!("n={n}\nk={}\nd=1\nt=0\nh=+XX\nc=II\nc=XI\n", n - r);
            occurred.see(numbers.as_bytes(), 1);
        }
        for number in numbers().filter(|&number| number != 13) {
            occurred.see(format!("r={number}\nat=3\n").as_bytes(), 0);
        }
        let missing = ["r=13", "a correction of weight 2", "c=none"];
        assert_eq!(occurred.missing(), missing);
        let mut others = Occurred::default();
        others.see(b"n=2\nk=1\nc=ZY\nc=none\n", 0);
        others.see(b"r=13\nat=9\n", 0);
        occurred.add(others);
        assert!(occurred.missing().is_empty());
        assert_eq!((occurred.admitted, occurred.errors), (277, 276));
    }
}
