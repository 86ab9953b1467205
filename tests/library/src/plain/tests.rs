use super::*;
use independent::decoding::{Decoded, Decoder};
use independent::random::Random;
use independent::record::{self, Record, LAST_CHANGE};
use independent::{admission, codes, published, reports, samples, sheet as sheets};
use reinoften::{ErrorPair, Pauli};

fn pauli(pauli: record::Pauli) -> Pauli {
    let record::Pauli { p, a, b } = pauli;
    Pauli { p, a, b }
}

fn code(record: &Record) -> Code {
    let &Record {
        n,
        r,
        d,
        g,
        x,
        z,
        w,
    } = record;
    let [g, x, z] = [g, x, z].map(|rows| rows.map(pauli));
    let w = pauli(w);
    Code {
        n,
        r,
        d,
        g,
        x,
        z,
        w,
    }
}

fn plain_refusal(refusal: sheets::Refusal) -> Refusal {
    Refusal {
        number: refusal.number,
        line: refusal.line,
        family: refusal.family.map_or(0, |family| family as u8),
    }
}

/// What the independent implementation answers.
fn expected_reading(bytes: &[u8]) -> Result<Code, RefusedSheet> {
    let admitted = admission::admit(bytes);
    admitted
        .map(|sheet| code(&Record::of(&sheet)))
        .map_err(|fault| {
            let refusal = plain_refusal(fault.refusal);
            let errors = fault.errors.map(|errors| {
                let n = errors[0].len();
                let [e, f] = errors.map(|letters| {
                    let minus = false;
                    pauli(record::Pauli::of(&sheets::Row { minus, letters }))
                });
                ErrorPair { n, e, f }
            });
            RefusedSheet { refusal, errors }
        })
}

/// Both walks answer as expected, and the number of the refusal is that.
fn check_reading(bytes: &[u8]) -> usize {
    let expected = expected_reading(bytes);
    assert_eq!(read_sheet::<Scan>(bytes), expected);
    assert_eq!(read_sheet::<Table>(bytes), expected);
    expected.map_or_else(|refused| refused.refusal.number as usize, |_| 0)
}

#[test]
fn sheets_are_read() {
    let mut random = Random(62);
    let mut numbers = [0; 15];
    for sheet in published::all() {
        numbers[check_reading(&sheet.text())] += 1;
    }
    for n in (2..=24).flat_map(|n| [n; 8]) {
        let r = 1 + random.index(n - 1);
        let sheet = codes::any_code(&mut random, n, r);
        let longer = codes::with_longer_distances(&mut random, &sheet);
        for sheet in longer.into_iter().take(2) {
            numbers[check_reading(&sheet.text())] += 1;
        }
    }
    for input in reports::fixed_inputs().chain(reports::inputs_of_round(2)) {
        let end = sheets::read_lines(&input).map_or(input.len(), |(_, used)| used);
        numbers[check_reading(&input[..end])] += 1;
        numbers[check_reading(&input)] += 1;
    }
    assert!(numbers.iter().all(|&count| count > 4), "{numbers:?}");
}

fn check_report(input: &[u8]) -> u8 {
    let expected = independent::report::report(input);
    let mut out = vec![b'.'; expected.len() + 1];
    for report in [report::<Scan>, report::<Table>] {
        out.fill(b'.');
        let short = report(input, &mut out[..expected.len() - 1]);
        assert_eq!(short, Err(refusal(17, 0)));
        assert!(out.iter().all(|&byte| byte == b'.'));
        assert_eq!(report(input, &mut out), Ok(expected.len()));
        assert_eq!(out, [&expected[..], b"."].concat());
    }
    expected[0]
}

#[test]
fn reports_are_written() {
    let inputs = reports::fixed_inputs().chain(reports::inputs_of_round(2));
    let firsts: Vec<u8> = inputs.map(|input| check_report(&input)).collect();
    let of_codes = firsts.iter().filter(|&&byte| byte == b'n').count();
    assert!(of_codes > 100 && firsts.len() - of_codes > 100);
}

/// A record of any rows, at times one outside its limits.
fn any_record(random: &mut Random, n: usize) -> Record {
    let (r, d) = (1 + random.index(n - 1), 1 + random.index(7));
    let mut record = Record::of(&samples::any_rows(random, n, r, d));
    if random.below(4) == 0 {
        record.change(1 + random.index(LAST_CHANGE));
    }
    record
}

#[test]
fn syndromes_are_decoded() {
    let mut random = Random(61);
    let mut outcomes = [0; 5];
    for n in (2..=24).flat_map(|n| [n; 40]) {
        let record = any_record(&mut random, n);
        let len = record.r.min(n) + random.index(9) / 8;
        let characters: Vec<u8> = (0..len).map(|_| random.pick(b"00001")).collect();
        let room = n - random.index(9) / 8;
        let mut expected_out = vec![b'.'; room];
        let expected = match Decoder::of(&record).decode(&characters, &mut expected_out) {
            Ok(Decoded::Correction) => Ok(Some(n)),
            Ok(Decoded::None) => Ok(None),
            Err(refusal) => Err(plain_refusal(refusal)),
        };
        for decode in [decode::<Scan>, decode::<Table>] {
            let mut out = vec![b'.'; room];
            assert_eq!(decode(code(&record), &characters, &mut out), expected);
            assert_eq!(out, expected_out);
        }
        outcomes[outcome(&expected)] += 1;
    }
    assert!(outcomes.iter().all(|&count| count > 20), "{outcomes:?}");
}

/// `none`, a correction, or a refusal from 15 on, by a number from 0 on.
fn outcome<Found>(decoded: &Result<Option<Found>, Refusal>) -> usize {
    match decoded {
        Ok(found) => usize::from(found.is_some()),
        Err(refusal) => refusal.number as usize - 13,
    }
}

#[test]
fn syndromes_are_decoded_by_value() {
    let mut random = Random(63);
    let mut outcomes = [0; 4];
    for n in (2..=24).flat_map(|n| [n; 40]) {
        let record = any_record(&mut random, n);
        let bits = record.r.min(31) + random.index(9) / 8;
        let mask = random.below(1 << bits) as u32 & random.below(1 << bits) as u32;
        let expected = match record.within_limits() {
            Err(refusal) => Err(plain_refusal(refusal)),
            Ok(_) if mask >> record.r != 0 => Err(refusal(16, 0)),
            Ok(_) => Ok(Decoder::of(&record).correct(mask).map(pauli)),
        };
        for correct in [correct::<Scan>, correct::<Table>] {
            assert_eq!(correct(code(&record), mask), expected);
        }
        outcomes[outcome(&expected)] += 1;
    }
    assert!(outcomes.iter().all(|&count| count > 20), "{outcomes:?}");
}

#[test]
fn canonical_generators_are_written() {
    let mut random = Random(64);
    let mut numbers = [0; 18];
    for n in (2..=24).flat_map(|n| [n; 40]) {
        let r = 1 + random.index(n - 1);
        let record = match random.below(2) {
            0 => any_record(&mut random, n),
            _ => Record::of(&codes::any_code(&mut random, n, r)),
        };
        let room = ((n + 4) * record.r.min(n)).saturating_sub(random.index(9) / 8);
        let [mut out, mut expected_out] = [(); 2].map(|()| vec![b'.'; room]);
        let expected = record.write_canonical(&mut expected_out);
        let expected = expected.map_err(plain_refusal);
        assert_eq!(canonical(code(&record), &mut out), expected);
        assert_eq!(out, expected_out);
        numbers[expected.map_or_else(|refusal| refusal.number as usize, |_| 0)] += 1;
    }
    assert!(
        [0, 6, 15, 17].iter().all(|&number| numbers[number] > 20),
        "{numbers:?}"
    );
}
