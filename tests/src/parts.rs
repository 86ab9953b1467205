//! The cases, part by part. The test program is run on all of them; a selection of each part is kept as files.

mod admissions;
mod codes;
mod decodings;
mod groups;
mod products;
mod reports;
mod sheets;

use crate::cases::{Case, Kind};
use crate::random::Random;
use crate::record::{LAST_CHANGE, SAME_MODULO_4};
use codes::Codes;
use std::collections::HashSet;

/// Cases, and how many of them are kept.
struct Part {
    cases: Vec<Case>,
    kept: usize,
}

impl Part {
    fn kept(cases: Vec<Case>) -> Part {
        let kept = cases.len();
        Part { cases, kept }
    }

    fn sampled(kept: usize, cases: Vec<Case>) -> Part {
        Part { cases, kept }
    }

    /// As many as are kept, any of them, in their order.
    fn sample(self, random: &mut Random) -> impl Iterator<Item = Case> + use<'_> {
        let (mut ahead, mut wanted) = (self.cases.len(), self.kept);
        self.cases.into_iter().filter(move |_| {
            let taken = random.index(ahead) < wanted;
            ahead -= 1;
            wanted -= usize::from(taken);
            taken
        })
    }
}

fn parts() -> Vec<Part> {
    let codes = Codes::made();
    let mut parts = products::parts();
    parts.extend(sheets::parts());
    parts.extend(groups::parts());
    parts.extend(admissions::parts(codes));
    parts.extend(decodings::parts(codes));
    parts.extend(reports::parts());
    parts
}

/// Those that are kept, each once.
pub fn selection() -> Vec<Case> {
    let mut random = Random(0x5eed_0008_1970);
    let mut cases = Vec::new();
    for part in parts() {
        cases.extend(part.sample(&mut random));
    }
    once(cases)
}

/// Every case, each once; and where a sheet has no change, a case with one too, which shows all of an answer that
/// else ends with a refusal.
pub fn all() -> Vec<Case> {
    let mut random = Random(0x5eed_0009_2010);
    let cases = parts().into_iter().flat_map(|part| part.cases);
    let with_changed = cases.flat_map(|case| {
        let changed = change(&mut random, &case).map(|change| case.changed(change));
        [Some(case), changed].into_iter().flatten()
    });
    once(with_changed.collect())
}

fn change(random: &mut Random, case: &Case) -> Option<usize> {
    match case.kind {
        Kind::Sheet if case.change == 0 => Some(1 + random.index(LAST_CHANGE)),
        Kind::Group | Kind::Checks if case.change == 0 => Some(random.pick(&SAME_MODULO_4)),
        _ => None,
    }
}

fn once(cases: Vec<Case>) -> Vec<Case> {
    let mut seen = HashSet::new();
    let is_new = |case: &Case| seen.insert(case.clone());
    cases.into_iter().filter(is_new).collect()
}

fn unchanged<T: Into<Vec<u8>>>(kind: Kind, texts: impl IntoIterator<Item = T>) -> Vec<Case> {
    let case = |text: T| Case::of(kind, text);
    texts.into_iter().map(case).collect()
}

/// Each of the texts with each of the changes.
fn each_change<T: Into<Vec<u8>>>(kind: Kind, texts: impl IntoIterator<Item = T>) -> Vec<Case> {
    let cases = unchanged(kind, texts).into_iter();
    let changed = |case: Case| (1..=LAST_CHANGE).map(move |change| case.changed(change));
    cases.flat_map(changed).collect()
}

#[cfg(test)]
mod tests {
    use super::*;
    use crate::answers::answer;

    fn lines(bytes: impl Iterator<Item = u8>) -> usize {
        bytes.filter(|&byte| byte == b'\n').count()
    }

    #[test]
    fn the_selection_is_short_and_has_every_number_that_there_is() {
        let cases = selection();
        let answers: Vec<u8> = cases.iter().flat_map(answer).collect();
        let input = lines(cases.iter().flat_map(Case::bytes));
        assert!(input + lines(answers.iter().copied()) < 10_000);
        let answers = String::from_utf8_lossy(&answers);
        for number in 1..=17 {
            assert!(answers.contains(&format!(" r={number} at=")), "{number}");
        }
        let changes: HashSet<usize> = cases.iter().map(|case| case.change).collect();
        assert_eq!(changes.len(), LAST_CHANGE + 1);
    }
}
