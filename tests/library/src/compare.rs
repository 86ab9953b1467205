//! Many calls, each compared with the independent implementation: the answer, every byte of the buffers, and that no
//! byte beyond them is touched.

mod areas;
mod calls;
mod expected;
mod records;
mod tally;

use calls::Comparison;
use independent::codes::any_code;
use independent::damage::prefixes;
use independent::program::text;
use independent::published;
use independent::random::{seed_of_clock, Random};
use independent::record::{Record, LAST_CHANGE};
use independent::reports::{fixed_inputs, input_of_seed, ROUND};
use independent::samples::{self, EIGHT};
use independent::sheet::read_lines;
use independent::strings::string_count;
use independent::tally::told;
use std::process::ExitCode;
use tally::Room;

/// So many records have any words in all fields.
const ANY_WORDS: usize = 500;

/// Longer searches than through so many strings are made once.
const MANY_STRINGS: u64 = 1_000_000;

/// Makes all calls. Without a seed the clock gives one.
pub fn compare(seed: Option<u64>) -> ExitCode {
    let seed = seed.unwrap_or_else(seed_of_clock);
    println!("seed {seed}");
    let mut run = Run {
        comparison: Comparison::of(Random::of_seed(seed)),
        random: Random::of_seed(!seed),
    };
    run.read_fixed();
    run.ask_samples();
    run.ask_published();
    run.read_and_ask_seeds(seed);
    run.ask_any_words();
    let tally = run.comparison.tally();
    println!("{tally}");
    let missing = tally.missing();
    for what in &missing {
        println!("--- {what} did not occur");
    }
    told(tally.passed(), tally.failed() + missing.len())
}

struct Run {
    comparison: Comparison,
    random: Random,
}

impl Run {
    /// Inputs that are the same in each run; and two sheets, of few qubits and of many, up to each of their bytes.
    fn read_fixed(&mut self) {
        let longest = any_code(&mut self.random, 24, 1).text();
        let cut = [EIGHT.as_bytes(), &longest].map(prefixes).concat();
        for (at, text) in (1..).zip(fixed_inputs().chain(cut)) {
            self.read(&format!("fixed input {at}"), &text);
        }
    }

    /// Reads a text as a sheet and reports on it; and where there is a sheet and more, the sheet by itself.
    fn read(&mut self, name: &str, bytes: &[u8]) {
        self.comparison.case(format!("{name}\n{}", text(bytes)));
        self.comparison.read_sheet(bytes);
        match read_lines(bytes) {
            Ok((sheet, _)) if string_count(sheet.n, sheet.d - 1) > MANY_STRINGS => {
                self.comparison.report(bytes, &[Room::Exact]);
            }
            Ok((_, used)) if used < bytes.len() => {
                self.comparison.read_sheet(&bytes[..used]);
                self.comparison.report(bytes, &Room::ALL);
            }
            _ => self.comparison.report(bytes, &Room::ALL),
        }
    }

    fn ask(&mut self, name: &str, record: Record) {
        records::ask(&mut self.comparison, &mut self.random, name, record);
    }

    /// Each sample, and the record beside a refused reading, with each change.
    fn ask_samples(&mut self) {
        let samples = samples::published().into_iter().map(|text| {
            let (sheet, _) = read_lines(text.as_bytes()).expect("a sheet");
            Record::of(&sheet)
        });
        for (at, sample) in (1..).zip(samples.chain([Record::EMPTY])) {
            for change in 0..=LAST_CHANGE {
                let mut record = sample.clone();
                record.change(change);
                self.ask(&format!("sample {at} with change {change}"), record);
            }
        }
    }

    fn ask_published(&mut self) {
        let codes = published::all().into_iter();
        for sheet in codes.chain([published::golay_and_a_qubit()]) {
            self.ask("a published code", Record::of(&sheet));
        }
    }

    /// Inputs from seeds, and the records of their sheets: as they are, and with changes of each kind.
    fn read_and_ask_seeds(&mut self, first: u64) {
        for at in 0..ROUND as u64 {
            let seed = first.wrapping_add(at);
            let text = input_of_seed(seed);
            self.read(&format!("input of seed {seed}"), &text);
            let Ok((sheet, _)) = read_lines(&text) else {
                continue;
            };
            let record = Record::of(&sheet);
            let changed = self.changed(&record);
            self.ask(&format!("record of seed {seed}"), record);
            self.ask(&format!("changed record of seed {seed}"), changed);
        }
    }

    fn changed(&mut self, record: &Record) -> Record {
        let random = &mut self.random;
        match random.below(3) {
            0 => records::with_any_distance(random, record),
            1 => records::with_any_words(random, record),
            _ => {
                let mut record = record.clone();
                record.change(1 + random.index(LAST_CHANGE));
                record
            }
        }
    }

    fn ask_any_words(&mut self) {
        for _ in 0..ANY_WORDS {
            let record = records::any_words(&mut self.random);
            self.ask("any words", record);
        }
    }
}
