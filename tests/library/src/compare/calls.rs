//! The seven calls, each made with buffers of several kinds and compared with what the independent implementation has.

use super::areas::{Area, Place, Side};
use super::expected::{self, written, Outcome, Subject, WrappedOutcome};
use super::tally::{Call, Room, Tally, Way};
use independent::admission::admit;
use independent::program::text;
use independent::random::Random;
use independent::record::{put, Pauli};
use independent::report::report;
use reinoften::calls::{self, Answer};
use std::fmt::Debug;
use std::ptr;

/// As many bytes as the longest input has.
const INPUT_ROOM: usize = 100_000;

/// So many hold every report and some more.
const OUT_ROOM: usize = 32_768 + LONGER;

/// By so many bytes at most a long buffer is too long.
const LONGER: usize = 300;

/// One of so many calls is made by the wrapper too.
const WRAPPED: u64 = 4;

/// One of so many buffers lies against the page before it.
const BEFORE: u64 = 4;

/// A call that writes: as the independent implementation has it, by itself, and by the wrapper.
struct Writing<'a> {
    call: Call,
    /// the bytes that the answer takes; any number where it is a refusal
    needed: usize,
    expected: &'a dyn Fn(&mut [u8]) -> Outcome,
    raw: &'a dyn Fn(*mut u8, usize) -> Answer,
    wrapped: &'a dyn Fn(&mut [u8]) -> WrappedOutcome,
}

/// Makes calls and compares them. What calls read is in a place of its own.
pub struct Comparison {
    input: Area,
    judge: Judge,
}

struct Judge {
    /// what the calls are about, and what is asked: both are shown with those that fail
    case: String,
    asked: String,
    out: Area,
    random: Random,
    tally: Tally,
}

impl Comparison {
    pub fn of(random: Random) -> Comparison {
        let judge = Judge {
            case: String::new(),
            asked: String::new(),
            out: Area::of(OUT_ROOM),
            random,
            tally: Tally::default(),
        };
        let input = Area::of(INPUT_ROOM);
        Comparison { input, judge }
    }

    pub fn tally(&self) -> &Tally {
        &self.judge.tally
    }

    /// Says what the next calls are about.
    pub fn case(&mut self, case: String) {
        self.judge.case = case;
        self.judge.asked.clear();
    }

    pub fn read_sheet(&mut self, bytes: &[u8]) {
        let Comparison { input, judge } = self;
        let side = judge.side();
        let sheet = input.holding(bytes, side);
        let admitted = admit(bytes);
        let expected = expected::reading(&admitted);
        let call = Call::ReadSheet;
        for (way, start) in starts(sheet, side) {
            let reading = unsafe { calls::reinoften_read_sheet(start, sheet.len()) };
            judge.compare(call, way, &expected, &reading);
            judge.tally.saw_number(call, reading.answer.number);
        }
        if let Ok(sheet) = &admitted {
            judge.tally.saw_size((sheet.n, sheet.generators.len()));
        }
        if judge.is_wrapped() {
            let expected = expected::wrapped_reading(&admitted);
            judge.compare(call, Way::Wrapped, &expected, &reinoften::read_sheet(sheet));
        }
    }

    /// With each of the rooms.
    pub fn report(&mut self, bytes: &[u8], rooms: &[Room]) {
        let Comparison { input, judge } = self;
        let side = judge.side();
        let input = input.holding(bytes, side);
        let report = report(bytes);
        judge.tally.saw_text(number_in(&report));
        let call = Call::Report;
        for (way, start) in starts(input, side) {
            let len = input.len();
            let writing = Writing {
                call,
                needed: report.len(),
                expected: &|out| put(&report, out).map(Some),
                raw: &|out, room| unsafe { calls::reinoften_report(start, len, out, room) },
                wrapped: &|out| reinoften::report(input, out).map(Some),
            };
            judge.tally.saw_way(call, way);
            judge.write(&writing, rooms);
        }
    }

    pub fn write_sheet(&mut self, subject: &Subject) {
        let Subject { code, sheet, .. } = subject;
        let writing = Writing {
            call: Call::WriteSheet,
            needed: self.judge.needed(sheet),
            expected: &|out| written(sheet, out),
            raw: &|out, room| unsafe { calls::reinoften_write_sheet(*code, out, room) },
            wrapped: &|out| code.write_sheet(out).map(Some),
        };
        self.judge.write(&writing, &Room::ALL);
    }

    pub fn canonical(&mut self, subject: &Subject) {
        let Subject {
            code, canonical, ..
        } = subject;
        let writing = Writing {
            call: Call::Canonical,
            needed: self.judge.needed(canonical),
            expected: &|out| written(canonical, out),
            raw: &|out, room| unsafe { calls::reinoften_canonical(*code, out, room) },
            wrapped: &|out| code.canonical(out).map(Some),
        };
        self.judge.write(&writing, &Room::ALL);
    }

    pub fn syndrome(&mut self, subject: &Subject, error: Pauli) {
        let code = &subject.code;
        let pauli = expected::pauli(error);
        self.judge.asked = format!("{error:?}");
        let writing = Writing {
            call: Call::Syndrome,
            needed: self.judge.some_room(subject.is_within(), subject.record.r),
            expected: &|out| subject.syndrome(error, out),
            raw: &|out, room| unsafe { calls::reinoften_syndrome(*code, pauli, out, room) },
            wrapped: &|out| code.syndrome(pauli, out).map(Some),
        };
        self.judge.write(&writing, &Room::ALL);
    }

    pub fn decode(&mut self, subject: &Subject, characters: &[u8]) {
        let Comparison { input, judge } = self;
        let code = &subject.code;
        let side = judge.side();
        let lent = input.holding(characters, side);
        let call = Call::Decode;
        judge.asked = text(characters);
        for (way, start) in starts(lent, side) {
            let len = lent.len();
            let writing = Writing {
                call,
                needed: judge.some_room(subject.is_within(), subject.record.n),
                expected: &|out| subject.decode(characters, out),
                raw: &|out, room| unsafe { calls::reinoften_decode(*code, start, len, out, room) },
                wrapped: &|out| code.decode(lent, out),
            };
            judge.tally.saw_way(call, way);
            judge.write(&writing, &Room::ALL);
        }
    }

    pub fn correct(&mut self, subject: &Subject, mask: u32) {
        let (judge, code) = (&mut self.judge, &subject.code);
        let found = subject.correct(mask);
        let call = Call::Correct;
        judge.asked = format!("{mask:#b}");
        let answer = unsafe { calls::reinoften_correct(*code, mask) };
        judge.compare(call, Way::ByValue, &expected::correction(&found), &answer);
        judge.tally.saw_number(call, answer.answer.number);
        if let Ok(Some(Pauli { a, b, .. })) = found {
            judge.tally.saw_weight((a | b).count_ones());
        }
        if judge.is_wrapped() {
            let expected = expected::wrapped(found).map(|found| found.map(expected::pauli));
            judge.compare(call, Way::Wrapped, &expected, &code.correct(mask));
        }
    }
}

impl Judge {
    fn side(&mut self) -> Side {
        match self.random.below(BEFORE) {
            0 => Side::Before,
            _ => Side::Behind,
        }
    }

    fn is_wrapped(&mut self) -> bool {
        self.random.below(WRAPPED) == 0
    }

    /// How many bytes a text takes, or any number where there is none.
    fn needed<E>(&mut self, text: &Result<Vec<u8>, E>) -> usize {
        let len = text.as_ref().map_or(0, Vec::len);
        self.some_room(text.is_ok(), len)
    }

    fn some_room(&mut self, is_needed: bool, needed: usize) -> usize {
        match is_needed {
            true => needed,
            false => 1 + self.random.index(LONGER),
        }
    }

    /// A call that writes nothing.
    fn compare<T: PartialEq + Debug>(&mut self, call: Call, way: Way, expected: &T, answer: &T) {
        let Judge {
            case, asked, tally, ..
        } = self;
        tally.judge(call, way, expected == answer, || {
            format!(
                "{case}\n{asked}\n--- has to be answered\n{expected:?}\n--- and is answered\n{answer:?}"
            )
        });
    }

    fn write(&mut self, writing: &Writing, rooms: &[Room]) {
        for &room in rooms {
            let side = self.side();
            let len = self.len(room, writing.needed);
            let place = self.out.place(len, side);
            self.write_into(writing, room, side, &place);
            if room != Room::Null && self.is_wrapped() {
                self.write_wrapped(writing, &place);
            }
        }
    }

    fn len(&mut self, room: Room, needed: usize) -> usize {
        match room {
            Room::Exact => needed,
            Room::OneShort => needed - 1,
            Room::Long => needed + 1 + self.random.index(LONGER),
            Room::Empty | Room::Null => 0,
        }
    }

    fn write_into(&mut self, writing: &Writing, room: Room, side: Side, place: &Place) {
        let (outcome, left) = self.expected(writing, place);
        let lent = self.out.lent(place);
        let start = match room {
            Room::Null => ptr::null_mut(),
            _ => lent.as_mut_ptr(),
        };
        let answer = (writing.raw)(start, lent.len());
        self.tally.saw_number(writing.call, answer.number);
        let way = Way::Into(room, side);
        let expected = (expected::answer(&outcome), left);
        self.compare_written(writing.call, way, place, expected, answer);
    }

    fn write_wrapped(&mut self, writing: &Writing, place: &Place) {
        let (outcome, left) = self.expected(writing, place);
        let answer = (writing.wrapped)(self.out.lent(place));
        let expected = (expected::wrapped(outcome), left);
        self.compare_written(writing.call, Way::Wrapped, place, expected, answer);
    }

    /// Lays out the buffer and the bytes near it anew. Gives what the answer has to be, and what these bytes have to be
    /// then.
    fn expected(&mut self, writing: &Writing, place: &Place) -> (Outcome, Vec<u8>) {
        let near = self.out.near(place);
        for (at, byte) in near.iter_mut().enumerate() {
            *byte = untouched(at);
        }
        let mut left = near.to_vec();
        let outcome = (writing.expected)(&mut left[place.within()]);
        (outcome, left)
    }

    /// The answer, and every byte of the buffer and near it.
    fn compare_written<T: PartialEq + Debug>(
        &mut self,
        call: Call,
        way: Way,
        place: &Place,
        (expected, left): (T, Vec<u8>),
        answer: T,
    ) {
        let Judge {
            case,
            asked,
            out,
            tally,
            ..
        } = self;
        let near = &*out.near(place);
        let passes = answer == expected && near == left;
        tally.judge(call, way, passes, || {
            let (left, near) = (text(&left), text(near));
            format!(
                "{case}\n{asked}\n--- has to be answered {expected:?}, with these bytes left\n{left}\n\
                 --- and is answered {answer:?}, with these\n{near}"
            )
        });
    }
}

/// Where bytes begin that a call reads. None at all are also nowhere.
fn starts(bytes: &[u8], side: Side) -> Vec<(Way, *const u8)> {
    let mut starts = vec![(Way::Lying(side), bytes.as_ptr())];
    if bytes.is_empty() {
        starts.push((Way::Nowhere, ptr::null()));
    }
    starts
}

/// The byte that stands there before a call. It differs from place to place, so that bytes cannot change places
/// unnoticed, and no answer has it.
fn untouched(at: usize) -> u8 {
    0x80 | (at * 37 + at / 128) as u8
}

/// The number of the refusal that a report tells of; 0 where it tells of a code.
fn number_in(report: &[u8]) -> u32 {
    let line = report.split(|&byte| byte == b'\n').next();
    let digits = line.and_then(|line| line.strip_prefix(b"r="));
    let digits = digits.map(String::from_utf8_lossy);
    digits.map_or(0, |digits| digits.parse().expect("a number"))
}
