//! Texts that are damaged in one place, or too long.

use crate::sheet;

/// The text up to each of its bytes: the empty text first, the whole text not among them.
pub fn prefixes(text: &[u8]) -> Vec<Vec<u8>> {
    (0..text.len()).map(|len| text[..len].to_vec()).collect()
}

/// The text with this byte in place of the one that stands there.
pub fn replaced(text: &[u8], at: usize, byte: u8) -> Vec<u8> {
    [&text[..at], &[byte], &text[at + 1..]].concat()
}

pub fn inserted(text: &[u8], at: usize, byte: u8) -> Vec<u8> {
    [&text[..at], &[byte], &text[at..]].concat()
}

pub fn deleted(text: &[u8], at: usize) -> Vec<u8> {
    [&text[..at], &text[at + 1..]].concat()
}

/// The text with something done to its lines.
pub fn with_lines<'a>(text: &'a [u8], change: impl FnOnce(&mut Vec<&'a [u8]>)) -> Vec<u8> {
    let mut lines = lines(text);
    change(&mut lines);
    lines.concat()
}

/// The text with two of its lines exchanged, each pair in turn.
pub fn lines_swapped(text: &[u8]) -> Vec<Vec<u8>> {
    let count = lines(text).len();
    let pairs = (0..count).flat_map(|i| (i + 1..count).map(move |j| (i, j)));
    let swapped = |(i, j)| with_lines(text, |lines| lines.swap(i, j));
    pairs.map(swapped).collect()
}

/// The text with one of its lines twice, each in turn.
pub fn lines_doubled(text: &[u8]) -> Vec<Vec<u8>> {
    let doubled = |i: usize| with_lines(text, |lines| lines.insert(i, lines[i]));
    (0..lines(text).len()).map(doubled).collect()
}

/// The text without one of its lines, each in turn.
pub fn lines_dropped(text: &[u8]) -> Vec<Vec<u8>> {
    let dropped = |i: usize| {
        with_lines(text, |lines| {
            lines.remove(i);
        })
    };
    (0..lines(text).len()).map(dropped).collect()
}

/// The text with this number on the line of n or of d.
pub fn renumbered(text: &[u8], key: &str, number: &str) -> Vec<u8> {
    let renumbered = |line: &[u8]| match line.starts_with(key.as_bytes()) {
        true => sheet::line(key, number.as_bytes()),
        false => line.to_vec(),
    };
    lines(text).into_iter().flat_map(renumbered).collect()
}

/// So many bytes: those of the text, and behind them the filler again and again.
pub fn filled(text: &[u8], filler: &[u8], len: usize) -> Vec<u8> {
    let bytes = text.iter().chain(filler.iter().cycle());
    bytes.take(len).copied().collect()
}

/// With their line feeds.
fn lines(text: &[u8]) -> Vec<&[u8]> {
    text.split_inclusive(|&byte| byte == b'\n').collect()
}
