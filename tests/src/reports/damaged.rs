//! Inputs that are damaged, each in one of several ways.

use crate::damage::{self, with_lines};
use crate::random::Random;

/// Gives the text with a damage. The text is not empty.
type Damage = fn(&mut Random, &[u8]) -> Vec<u8>;

pub const DAMAGES: [Damage; 11] = [
    cut,
    unfinished,
    replaced,
    inserted,
    deleted,
    swapped,
    doubled,
    dropped,
    renumbered,
    with_carriage_returns,
    with_odd_byte,
];

/// Bytes that stand in inputs, so that a letter, a sign, a digit or a key is another.
const BYTES: &[u8] = b"IXYZ+-0123456789ndgxzws=\n";

/// Bytes that stand in none.
const ODD_BYTES: &[u8] = b"\0\xff\x80\xb1\r\t\x0b\x1b i{";

fn cut(random: &mut Random, text: &[u8]) -> Vec<u8> {
    text[..random.index(text.len())].to_vec()
}

/// Without its last line feed.
fn unfinished(_: &mut Random, text: &[u8]) -> Vec<u8> {
    text.strip_suffix(b"\n").unwrap_or(text).to_vec()
}

fn replaced(random: &mut Random, text: &[u8]) -> Vec<u8> {
    damage::replaced(text, random.index(text.len()), random.pick(BYTES))
}

fn inserted(random: &mut Random, text: &[u8]) -> Vec<u8> {
    damage::inserted(text, random.index(text.len() + 1), random.pick(BYTES))
}

fn deleted(random: &mut Random, text: &[u8]) -> Vec<u8> {
    damage::deleted(text, random.index(text.len()))
}

fn swapped(random: &mut Random, text: &[u8]) -> Vec<u8> {
    with_lines(text, |lines| {
        let (i, j) = (random.index(lines.len()), random.index(lines.len()));
        lines.swap(i, j);
    })
}

fn doubled(random: &mut Random, text: &[u8]) -> Vec<u8> {
    with_lines(text, |lines| {
        let at = random.index(lines.len());
        lines.insert(at, lines[at]);
    })
}

fn dropped(random: &mut Random, text: &[u8]) -> Vec<u8> {
    with_lines(text, |lines| {
        lines.remove(random.index(lines.len()));
    })
}

/// Any number for n or d, also one that is off its form.
fn renumbered(random: &mut Random, text: &[u8]) -> Vec<u8> {
    const OFF_FORM: [&str; 8] = ["", "0", "00", "03", "100", "+3", "3 ", "x"];
    let number = match random.below(4) {
        0 => random.pick(&OFF_FORM).to_string(),
        1 => random.index(100).to_string(),
        _ => random.index(10).to_string(),
    };
    damage::renumbered(text, random.pick(&["n=", "d="]), &number)
}

/// Before each line feed, or before one of them.
fn with_carriage_returns(random: &mut Random, text: &[u8]) -> Vec<u8> {
    let feeds = text.iter().filter(|&&byte| byte == b'\n').count();
    let only = match random.below(2) {
        0 => None,
        _ => Some(random.index(feeds.max(1))),
    };
    let mut seen = 0;
    let mut bytes = Vec::new();
    for &byte in text {
        if byte == b'\n' {
            if only.is_none_or(|only| only == seen) {
                bytes.push(b'\r');
            }
            seen += 1;
        }
        bytes.push(byte);
    }
    bytes
}

fn with_odd_byte(random: &mut Random, text: &[u8]) -> Vec<u8> {
    let (at, byte) = (random.index(text.len()), random.pick(ODD_BYTES));
    match random.below(2) {
        0 => damage::replaced(text, at, byte),
        _ => damage::inserted(text, at, byte),
    }
}
