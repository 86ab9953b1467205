//! What the test program has to write for a case.

mod decodings;

use crate::admission::{self, Fault};
use crate::cases::{Case, Kind};
use crate::group::{canonical_generators, member};
use crate::product::{commute, product};
use crate::record::{put, write_number, write_numbers, Pauli, Record};
use crate::report;
use crate::sheet::{self, Letter, Refusal, Row, Sheet};
use std::fmt::Display;

/// So many bytes hold every report.
const REPORT_ROOM: usize = 32768;

pub fn answer(case: &Case) -> Vec<u8> {
    match case.kind {
        Kind::Products => products(&case.text),
        Kind::Sheet => sheet(&case.text, case.change),
        Kind::Lines => lines(&case.text, case.change),
        Kind::Group => group(&case.text, case.change),
        Kind::Admission => admission(&case.text).into(),
        Kind::Checks => checks(&case.text, case.change).into(),
        Kind::Decodings => decodings::decodings(&case.text, case.change),
        Kind::Corrections => decodings::corrections(&case.text),
        Kind::Report => report(&case.text),
    }
}

/// The product of the rows of a line, whether the last commutes with the product of those before it, and the
/// product's weight.
fn products(line: &[u8]) -> Vec<u8> {
    let Some(rows) = rows_of_one_length(line) else {
        return b"not rows\n".to_vec();
    };
    let (last, before) = rows.split_last().expect("a line has a row");
    let before = product(last.letters.len(), before);
    let product = before.times(last);
    let word = match commute(&before.plus_row(), last) {
        true => "commutes",
        false => "anticommutes",
    };
    let weight = sheet::weight(&product.letters);
    [product.text(), format!(" {word} {weight}\n").into()].concat()
}

/// One space between rows, and a line feed behind them.
fn rows_of_one_length(line: &[u8]) -> Option<Vec<Row>> {
    let words: Vec<&[u8]> = line
        .strip_suffix(b"\n")?
        .split(|&byte| byte == b' ')
        .collect();
    let n = words[0].len().checked_sub(1)?;
    if !(1..=32).contains(&n) {
        return None;
    }
    words.into_iter().map(|word| sheet::row(word, n)).collect()
}

/// The reading of the lines; and unless they are refused and there is no change, the record beside it and what is
/// behind the lines, the reading of a sheet by itself and the numbers of its record, and what the writer makes of the
/// changed record.
fn sheet(text: &[u8], change: usize) -> Vec<u8> {
    let reading = sheet::read_lines(text);
    let lines = read_line("lines", &reading);
    if reading.is_err() && change == 0 {
        return lines.into();
    }
    let used = reading.as_ref().map_or(0, |(_, used)| *used);
    let behind = reading.as_ref().map_or(&[][..], |_| &text[used..]);
    let mut record = record_of(&reading);
    let numbers = numbers_of(&record) + &some_rows(&record);
    record.change(change);
    let written = written_thrice(used, |out| record.write(out));
    let (behind, alone) = (shown_behind(behind), alone(text));
    [lines.into(), numbers.into(), behind, alone.into(), written].concat()
}

fn alone(text: &[u8]) -> String {
    let reading = sheet::read_alone(text).map(|sheet| (sheet, text.len()));
    read_line("alone", &reading) + &numbers_of(&record_of(&reading))
}

/// How many bytes were read and the line of w, or the refusal.
fn read_line(name: &str, reading: &Result<(Sheet, usize), Refusal>) -> String {
    let numbers = reading
        .as_ref()
        .map(|(sheet, used)| format!("{used} {}", sheet.lines()));
    format!("{name} {}\n", value(numbers))
}

fn record_of(reading: &Result<(Sheet, usize), Refusal>) -> Record {
    let sheet = reading.as_ref().map(|(sheet, _)| sheet);
    sheet.map_or(Record::EMPTY, Record::of)
}

fn numbers_of(record: &Record) -> String {
    format!("record {} {} {}\n", record.n, record.r, record.d)
}

/// The phases and masks of w, of the first row of each family, and of the last generator, or the first where there is
/// none.
fn some_rows(record: &Record) -> String {
    let last = record.r.saturating_sub(1);
    let Record { g, x, z, w, .. } = record;
    let rows = [*w, g[0], x[0], z[0], g[last]];
    format!("rows{}\n", rows.map(phase_and_masks).concat())
}

fn phase_and_masks(Pauli { p, a, b }: Pauli) -> String {
    format!(" {p} {a} {b}")
}

/// How many bytes are behind the lines, and these bytes unless they are more than 40.
fn shown_behind(bytes: &[u8]) -> Vec<u8> {
    let count = format!("behind {}\n", bytes.len()).into_bytes();
    if bytes.len() > 40 {
        return count;
    }
    [&count, bytes, b"\n"].concat()
}

/// What is written of the changed record's first generator, its letters, n, and X mask of w, each as a line; then of n
/// and d, and of all rows.
fn lines(text: &[u8], change: usize) -> Vec<u8> {
    let mut record = sheet::read_alone(text).map_or(Record::EMPTY, |sheet| Record::of(&sheet));
    let room = record.n + 4;
    let rows = 2 * record.n - record.r;
    record.change(change);
    let Record { n, d, g, w, .. } = record;
    let row = written_thrice(room, |out| record.write_row("h=", g[0], out));
    let letters = written_thrice(room - 1, |out| record.write_letters("e=", g[0], out));
    let number = written_thrice(23, |out| write_number("n=", n, out));
    let mask = written_thrice(8, |out| write_number("n=", w.a as usize, out));
    let numbers = written_thrice(8, |out| write_numbers(n, d, out));
    let families = written_thrice(rows * room, |out| record.write_families(out));
    [row, letters, number, mask, numbers, families].concat()
}

/// The count of the rows or the refusal; and unless it is a refusal and there is no change, for each probe the sign
/// of the member that it is, phase aside, and what the writer of canonical generators makes of the record.
fn group(text: &[u8], change: usize) -> Vec<u8> {
    let sheet = sheet::read_alone(text).ok();
    let mut record = sheet.as_ref().map_or(Record::EMPTY, Record::of);
    let room = record.r * (record.n + 4);
    record.change(change);
    let generators = record.checked_generators();
    let count = generators.as_ref().map(|rows| rows.len());
    let count = format!("group {}\n", value(count));
    if generators.is_err() && change == 0 {
        return count.into();
    }
    let memberships = probes(sheet)
        .into_iter()
        .map(|probe| membership(&generators, probe));
    let probes = format!("probes{}\n", memberships.collect::<String>());
    let written = written_thrice(room, |out| record.write_canonical(out));
    [count.into(), probes.into(), written].concat()
}

/// The letters of the x rows, of the z rows, of w, of w with another phase, and of w with a bit above qubit n in
/// either mask, which has no letters and is in no group. A refused reading has but the last four.
fn probes(sheet: Option<Sheet>) -> Vec<Option<Vec<Letter>>> {
    let Some(sheet) = sheet else {
        return vec![None; 4];
    };
    let rows = sheet.xs.into_iter().chain(sheet.zs);
    let claim = Some(sheet.claim);
    let claims = [claim.clone(), claim, None, None];
    rows.map(|row| Some(row.letters)).chain(claims).collect()
}

fn membership(generators: &Result<Vec<Row>, Refusal>, probe: Option<Vec<Letter>>) -> String {
    let sign = |rows: &Vec<Row>| match probe.and_then(|letters| member(rows, &letters)) {
        Some(row) if row.minus => "-",
        Some(_) => "+",
        None => "no",
    };
    let sign = generators.as_ref().map(sign);
    format!(" {}", value(sign))
}

/// Whether the sheet is admitted or how it is refused, and the record beside that: its numbers and some rows.
fn admission(text: &[u8]) -> String {
    let sheet = admission::admit(text);
    let record = sheet.as_ref().map_or(Record::EMPTY, Record::of);
    let answer = verdict(sheet.as_ref().map(|_| "admitted"));
    format!("admission {answer}\n") + &numbers_of(&record) + &some_rows(&record)
}

/// Whether the changed record of a sheet passes its checks, and its canonical generators beside that: none where it
/// does not. w is said to stand on a line that no sheet has.
fn checks(text: &[u8], change: usize) -> String {
    let mut record = sheet::read_alone(text).map_or(Record::EMPTY, |sheet| Record::of(&sheet));
    record.change(change);
    let answer = admission::check_record(&record, 1000 + change);
    let generators = record.checked_generators().ok();
    let rows = generators.filter(|_| answer.is_ok()).unwrap_or_default();
    let answer = verdict(answer.as_ref().map(|()| "passed"));
    format!("checks {answer}\n") + &canonical(&rows)
}

/// The count of qubits of the canonical generators of these rows, how many they are, and their phases and masks.
fn canonical(rows: &[Row]) -> String {
    let rows = canonical_generators(rows);
    let n = rows.first().map_or(0, |row| row.letters.len());
    let paulis = rows.iter().map(Pauli::of).map(phase_and_masks);
    format!(
        "canonical {n} {}{}\n",
        rows.len(),
        paulis.collect::<String>()
    )
}

/// A word, or a refusal; with 14 also the count of qubits, and the phases and masks of the two errors.
fn verdict(answer: Result<&str, &Fault>) -> String {
    let refusal = value(answer.map_err(|fault| &fault.refusal));
    match answer.err().and_then(|fault| fault.errors.as_ref()) {
        Some(errors) => format!("{refusal} errors {}{}", errors[0].len(), pair(errors)),
        None => refusal,
    }
}

fn pair(errors: &[Vec<Letter>; 2]) -> String {
    let numbers = |letters: &Vec<Letter>| {
        let letters = letters.clone();
        let minus = false;
        phase_and_masks(Pauli::of(&Row { minus, letters }))
    };
    errors.iter().map(numbers).collect()
}

/// What the writer of a report does with as many bytes as hold every report, with a byte less than this report takes,
/// and with as many.
fn report(input: &[u8]) -> Vec<u8> {
    let report = report::report(input);
    let used = report.len();
    let rooms = [
        ("longer", REPORT_ROOM),
        ("short", used - 1),
        ("exact", used),
    ];
    let written = |(name, room)| written(name, room, |out| put(&report, out));
    rooms.into_iter().flat_map(written).collect()
}

/// What a writer does with a byte less than its lines take, with as many, and with three more.
fn written_thrice<T: Display>(
    used: usize,
    write: impl Fn(&mut [u8]) -> Result<T, Refusal>,
) -> Vec<u8> {
    let rooms = [
        ("short", used.saturating_sub(1)),
        ("exact", used),
        ("longer", used + 3),
    ];
    let written = |(name, room)| written(name, room, &write);
    rooms.into_iter().flat_map(written).collect()
}

/// What a writer answers, and its buffer of so many bytes. They are dots before, so that it can be seen what was
/// written: up to the last byte that is no dot, and how many dots follow.
fn written<T: Display>(
    name: &str,
    room: usize,
    write: impl Fn(&mut [u8]) -> Result<T, Refusal>,
) -> Vec<u8> {
    let mut buffer = vec![b'.'; room];
    let answer = format!("{name} {}\n", value(write(&mut buffer).as_ref()));
    let last = buffer.iter().rposition(|&byte| byte != b'.');
    let shown = &buffer[..last.map_or(0, |last| last + 1)];
    let dots = format!(" {}\n", room - shown.len());
    [answer.as_bytes(), shown, dots.as_bytes()].concat()
}

/// A value, or a refusal with its number, its line, and its family where it has one.
fn value(answer: Result<impl Display, &Refusal>) -> String {
    match answer {
        Ok(value) => value.to_string(),
        Err(refusal) => {
            let family = refusal.family.map(|key| format!(" of={key}"));
            let Refusal { number, line, .. } = refusal;
            format!("r={number} at={line}{}", family.unwrap_or_default())
        }
    }
}
