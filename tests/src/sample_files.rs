//! The files of samples/. Each sheet has the report that is made here, the tables of the README say of it what its
//! report says, and the codes are those that their names promise.

use crate::classical::{css, hypergraph, Matrix};
use crate::published;
use crate::report::report;
use crate::sheet::{read_lines, Row};
use std::collections::BTreeSet;
use std::fs;
use std::path::{Path, PathBuf};

/// The numbers of the refusals that a report can tell of. 15 and 17 are refusals of calls.
const OF_REPORTS: [usize; 15] = [1, 2, 3, 4, 5, 6, 7, 8, 9, 10, 11, 12, 13, 14, 16];

fn folder() -> PathBuf {
    Path::new(env!("CARGO_MANIFEST_DIR")).join("../samples")
}

fn file(name: &str) -> Vec<u8> {
    fs::read(folder().join(name)).expect(name)
}

/// What stands before this ending in the names of the files that have it.
fn names(ending: &str) -> BTreeSet<String> {
    let files = fs::read_dir(folder()).unwrap();
    let names = files.map(|file| file.unwrap().file_name().into_string().unwrap());
    names
        .filter_map(|name| Some(name.strip_suffix(ending)?.to_string()))
        .collect()
}

fn generators(name: &str) -> Vec<Row> {
    let input = file(&format!("{name}.sheet"));
    read_lines(&input).expect(name).0.generators
}

#[test]
fn there_are_sheets_their_reports_and_the_readme() {
    let sheets = names(".sheet");
    assert_eq!(names(".report"), sheets);
    assert_eq!(names("").len(), 2 * sheets.len() + 1);
}

#[test]
fn each_report_is_the_one_made_here() {
    for name in names(".sheet") {
        let made = String::from_utf8(report(&file(&format!("{name}.sheet")))).unwrap();
        let expected = String::from_utf8(file(&format!("{name}.report"))).unwrap();
        assert_eq!(made, expected, "{name}");
    }
}

/// The name of a sample, and n, k and d, or the number of its refusal and the line named.
type Entry = (String, Vec<usize>);

/// What the reports say, in the order of the names.
fn entries_of_reports() -> Vec<Entry> {
    let entry = |name: String| {
        let text = String::from_utf8(file(&format!("{name}.report"))).unwrap();
        let pairs = text.lines().filter_map(|line| line.split_once('='));
        let told = pairs.filter(|(key, _)| ["n", "k", "d", "r", "at"].contains(key));
        let numbers = told.map(|(_, value)| value.parse().unwrap()).collect();
        (name, numbers)
    };
    names(".report").into_iter().map(entry).collect()
}

/// The rows of the README's tables that begin with a name between backquotes, with the numbers in the cells behind it.
fn entries_of_readme() -> Vec<Entry> {
    let text = String::from_utf8(file("README.md")).unwrap();
    let rows = text.lines().filter_map(|line| line.strip_prefix("| `"));
    let entry = |row: &str| {
        let (name, cells) = row.split_once("` |").expect(row);
        let numbers = cells.split('|').map_while(|cell| cell.trim().parse().ok());
        (name.to_string(), numbers.collect())
    };
    rows.map(entry).collect()
}

#[test]
fn the_readme_names_each_sample_once_with_the_numbers_of_its_report() {
    let mut entries = entries_of_readme();
    entries.sort();
    assert_eq!(entries, entries_of_reports());
}

#[test]
fn each_number_has_a_refused_sample_that_is_named_after_it() {
    let mut refused = BTreeSet::new();
    for (name, numbers) in entries_of_reports() {
        let Some(rest) = name.strip_prefix("refused-") else {
            assert_eq!(numbers.len(), 3, "{name} is admitted");
            continue;
        };
        assert_eq!(rest[..2].parse(), Ok(numbers[0]), "{name}");
        refused.insert(numbers[0]);
    }
    assert_eq!(refused, BTreeSet::from(OF_REPORTS));
}

/// Their qubits, pairs and distances are held to what is printed, there.
#[test]
fn published_codes_have_the_generators_that_are_printed() {
    let published = published::all();
    let names = [
        "two-qubit",
        "bit-flip-three",
        "four-qubit",
        "five-qubit",
        "steane",
        "eight-qubit",
        "shor-nine",
        "thirteen-qubit",
        "sixteen-qubit",
        "golay-23",
    ];
    for name in names {
        let generators = generators(name);
        let mut codes = published.iter();
        assert!(codes.any(|code| code.generators == generators), "{name}");
    }
}

/// The faces of one colour, each with ones at the qubits at its corners. The qubits are a grid of three by three. The
/// faces at its top and its bottom are even, and those at its sides odd.
fn faces(colour: usize) -> Matrix {
    let face = |i: usize, j: usize| {
        let touches = |at: usize, side: usize| at == side || at + 1 == side;
        let qubits = (0..9).map(|qubit| touches(qubit / 3, i) && touches(qubit % 3, j));
        qubits.collect()
    };
    let places = (0..=3).flat_map(|i| (0..=3).map(move |j| (i, j)));
    let of_colour = places.filter(|(i, j)| (i + j) % 2 == colour);
    let is_kept = |(i, j): &(usize, usize)| match colour {
        0 => (1..=2).contains(j),
        _ => (1..=2).contains(i),
    };
    let kept = of_colour.filter(is_kept);
    Matrix(kept.map(|(i, j)| face(i, j)).collect())
}

#[test]
fn the_surface_code_has_x_on_even_faces_and_z_on_odd_ones() {
    assert_eq!(generators("surface-nine"), css(&faces(0), &faces(1)));
}

/// The toric code is the product of two rings of three. All nine rows of a kind have the product I, and the last of
/// them is left out.
#[test]
fn the_toric_code_is_the_product_of_two_rings() {
    let ring_row = |i: usize| (0..3).map(|j| j == i || j == (i + 1) % 3).collect();
    let ring = Matrix((0..3).map(ring_row).collect());
    let rows = hypergraph(&ring, &ring);
    assert_eq!(generators("toric-18"), [&rows[..8], &rows[9..17]].concat());
}

#[test]
fn the_rows_of_the_cyclic_code_are_shifts_of_one() {
    let rows = generators("cyclic-17");
    for (row, next) in rows.iter().zip(&rows[1..]) {
        let mut shifted = row.clone();
        shifted.letters.rotate_right(1);
        assert_eq!(*next, shifted);
    }
}
