//! The same question to plain Rust, in both forms, and to the library.

use super::timing::{timed, Times};
use crate::plain::{self, Scan, Table};
use reinoften::calls::{self, Reading};
use reinoften::Code;
use std::cell::RefCell;
use std::fmt::Debug;
use std::hint::black_box;

const LETTERS_ROOM: usize = 24;
const CANONICAL_ROOM: usize = 644;
const REPORT_ROOM: usize = 32_768;

/// The library's call is timed as it is, since what makes a `Result` of its answer copies the record once more.
pub fn admission(sheet: &[u8]) -> Times {
    let answer = reinoften::read_sheet(sheet);
    assert_eq!(plain::read_sheet::<Scan>(sheet), answer);
    assert_eq!(plain::read_sheet::<Table>(sheet), answer);
    timed([
        &|| {
            let _ = black_box(plain::read_sheet::<Scan>(black_box(sheet)));
        },
        &|| {
            let _ = black_box(plain::read_sheet::<Table>(black_box(sheet)));
        },
        &|| {
            let _ = black_box(read_in_c(black_box(sheet)));
        },
    ])
}

fn read_in_c(sheet: &[u8]) -> Reading {
    unsafe { calls::reinoften_read_sheet(sheet.as_ptr(), sheet.len()) }
}

pub fn decode(code: &Code, syndrome: &[u8]) -> Times {
    timed_texts::<_, LETTERS_ROOM, 3>([
        &|out| plain::decode::<Scan>(*black_box(code), black_box(syndrome), out),
        &|out| plain::decode::<Table>(*black_box(code), black_box(syndrome), out),
        &|out| black_box(code).decode(black_box(syndrome), out),
    ])
}

pub fn correct(code: &Code, syndrome: &[u8]) -> Times {
    let bits = syndrome.iter().rev();
    let mask = bits.fold(0, |mask, &byte| 2 * mask + u32::from(byte == b'1'));
    timed([
        &|| plain::correct::<Scan>(*black_box(code), black_box(mask)),
        &|| plain::correct::<Table>(*black_box(code), black_box(mask)),
        &|| black_box(code).correct(black_box(mask)),
    ])
}

/// Of plain Rust and of the library.
pub fn canonical(code: &Code) -> [f64; 2] {
    timed_texts::<_, CANONICAL_ROOM, 2>([&|out| plain::canonical(*black_box(code), out), &|out| {
        black_box(code).canonical(out)
    }])
}

pub fn report(input: &[u8]) -> Times {
    timed_texts::<_, REPORT_ROOM, 3>([
        &|out| plain::report::<Scan>(black_box(input), out),
        &|out| plain::report::<Table>(black_box(input), out),
        &|out| reinoften::report(black_box(input), out),
    ])
}

type Writes<'a, T> = &'a dyn Fn(&mut [u8]) -> T;

/// Of calls that write the same into a buffer with this room.
fn timed_texts<T: PartialEq + Debug, const ROOM: usize, const N: usize>(
    calls: [Writes<T>; N],
) -> [f64; N] {
    let texts = calls.map(|call| {
        let mut out = [0; ROOM];
        call(&mut out);
        out
    });
    assert!(texts.iter().all(|text| *text == texts[0]));
    let out = RefCell::new([0; ROOM]);
    let calls = calls.map(|call| || call(&mut *out.borrow_mut()));
    timed(calls.each_ref().map(|call| call as _))
}

#[cfg(test)]
mod tests {
    use super::*;

    #[test]
    #[should_panic]
    fn calls_that_write_otherwise_are_not_timed() {
        timed_texts::<_, 2, 2>([&|out| out[0] = 1, &|out| out[1] = 1]);
    }
}
