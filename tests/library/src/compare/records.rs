//! Records that are asked about: those of sheets, changed ones, and any words at all.

use super::calls::Comparison;
use super::expected::Subject;
use independent::decoding::{mask, read_syndrome};
use independent::random::Random;
use independent::record::{Pauli, Record};
use independent::syndromes::{any_bits, light_error, off_form};

/// So many rows a family of a record has room for.
const ROOM: usize = 32;

/// So many qubits at most has a record that is given the longest distance, since corrections take long else.
const FEW_QUBITS: usize = 14;

/// Makes every call on a record, with several errors and syndromes.
pub fn ask(comparison: &mut Comparison, random: &mut Random, name: &str, record: Record) {
    comparison.case(format!("{name}\n{record:?}"));
    let subject = Subject::of(record);
    comparison.write_sheet(&subject);
    comparison.canonical(&subject);
    let counted = counted(&subject);
    let [light, other] = [(); 2].map(|()| Pauli::of(&light_error(random, &counted)));
    let any = any_pauli(random);
    for error in [light, any] {
        comparison.syndrome(&subject, error);
    }
    let right = [light, other, any].map(|error| syndrome_of(&subject, error));
    let off_form = off_form(random, counted.r);
    let wrong = [(); 2].map(|()| off_form[random.index(off_form.len())].clone());
    let any_bits = any_bits(random, counted.r);
    for characters in right.iter().chain([&any_bits]).chain(&wrong) {
        comparison.decode(&subject, characters);
    }
    for mask in masks(random, counted.r, &right) {
        comparison.correct(&subject, mask);
    }
}

/// The record, or where it is outside its limits one with numbers that questions can have.
fn counted(subject: &Subject) -> Record {
    let record = subject.record.clone();
    match subject.is_within() {
        true => record,
        false => Record {
            n: 1 + record.n % ROOM,
            r: record.r % ROOM,
            d: 3,
            ..record
        },
    }
}

/// The characters of an error's syndrome; none where the record is outside its limits.
fn syndrome_of(subject: &Subject, error: Pauli) -> Vec<u8> {
    let mut characters = vec![b'.'; ROOM];
    let count = subject.syndrome(error, &mut characters).ok().flatten();
    characters.truncate(count.unwrap_or(0));
    characters
}

/// Those of the syndromes, and with bits from r on, one or all; any bits, and any below.
fn masks(random: &mut Random, r: usize, syndromes: &[Vec<u8>]) -> Vec<u32> {
    let mask_of = |characters: &Vec<u8>| {
        let bits = read_syndrome(characters.len(), characters);
        bits.and_then(|bits| mask(&bits)).unwrap_or(0)
    };
    let mut masks: Vec<u32> = syndromes.iter().map(mask_of).collect();
    let (above, any) = (u32::MAX << r, word(random));
    let one = 1 << (r + random.index(ROOM - r));
    masks.extend([
        masks[0] | one,
        masks[0] | above,
        u32::MAX,
        any,
        any & !above,
    ]);
    masks
}

fn any_pauli(random: &mut Random) -> Pauli {
    let [p, a, b] = [(); 3].map(|()| word(random));
    Pauli { p, a, b }
}

fn word(random: &mut Random) -> u32 {
    random.below(1 << 32) as u32
}

/// A number at an edge, or any.
fn number(random: &mut Random) -> usize {
    const EDGES: [usize; 12] = [
        0,
        1,
        2,
        7,
        8,
        24,
        25,
        31,
        33,
        u32::MAX as usize,
        1 << 63,
        usize::MAX,
    ];
    match random.below(3) {
        0 => (word(random) as usize) << 32 | word(random) as usize,
        1 => random.index(ROOM),
        _ => random.pick(&EDGES),
    }
}

/// Any words in all fields.
pub fn any_words(random: &mut Random) -> Record {
    let mut rows = || [(); ROOM].map(|()| any_pauli(random));
    let (g, x, z) = (rows(), rows(), rows());
    let w = any_pauli(random);
    let [n, r, d] = [(); 3].map(|()| number(random));
    Record {
        n,
        r,
        d,
        g,
        x,
        z,
        w,
    }
}

/// The record with another distance, of which it may still be asked what is decoded.
pub fn with_any_distance(random: &mut Random, record: &Record) -> Record {
    let longer = match record.n <= FEW_QUBITS {
        true => 7,
        false => 5,
    };
    let d = random.pick(&[3, 4, 5, longer]);
    Record {
        d,
        ..record.clone()
    }
}

/// The record with any word in one of its fields, or in some.
pub fn with_any_words(random: &mut Random, record: &Record) -> Record {
    let mut record = record.clone();
    for _ in 0..1 + random.index(3) * random.index(3) {
        match random.below(6) {
            0 => record.n = number(random),
            1 => record.r = number(random),
            2 => record.d = number(random),
            _ => any_word_in_row(random, &mut record),
        }
    }
    record
}

/// A word, or one bit of it.
fn any_word_in_row(random: &mut Random, record: &mut Record) {
    let at = random.index(ROOM);
    let row = match random.below(7) {
        0 | 1 => &mut record.g[at],
        2 | 3 => &mut record.x[at],
        4 | 5 => &mut record.z[at],
        _ => &mut record.w,
    };
    let field = match random.below(3) {
        0 => &mut row.p,
        1 => &mut row.a,
        _ => &mut row.b,
    };
    match random.below(2) {
        0 => *field = word(random),
        _ => *field ^= 1 << random.index(ROOM),
    }
}
