//! How the times grow with the number of qubits, for each t.

use super::codes::{cyclic_13, cyclic_17, five, Known};
use super::timing::{Times, LIBRARY};
use super::{markdown, questions};
use independent::codes::with_qubits;

const QUBITS: [usize; 10] = [5, 7, 9, 11, 13, 16, 17, 20, 22, 24];

/// The times of the codes that correct t errors.
pub struct Series {
    pub t: usize,
    pub points: Vec<Point>,
}

/// A decode call whose search goes to its end or nearly so, and an admission.
pub struct Point {
    pub n: usize,
    pub decode: Times,
    pub admission: Times,
}

/// For t of 1, 2 and 3 a code of the literature that has few qubits, and the same with qubits added.
pub fn measured() -> [Series; 3] {
    let smallest = [five(), cyclic_13(), cyclic_17()];
    smallest.map(|sheet| {
        let counts = QUBITS.into_iter().filter(|&n| n >= sheet.n);
        let points = counts.map(|n| point(&Known::of("", &with_qubits(&sheet, n))));
        Series {
            t: (sheet.d - 1) / 2,
            points: points.collect(),
        }
    })
}

fn point(known: &Known) -> Point {
    let syndromes = known.syndromes();
    let (_, longest) = syndromes.last().expect("a syndrome");
    Point {
        n: known.code.n,
        decode: questions::decode(&known.code, longest),
        admission: questions::admission(&known.sheet),
    }
}

/// A call, and its times.
pub type Column = (&'static str, fn(&Point) -> Times);

pub const COLUMNS: [Column; 2] = [
    ("decode", |point| point.decode),
    ("admission", |point| point.admission),
];

pub fn print(series: &[Series]) {
    println!("\nGrowth: Reinoften's times for n qubits.\n");
    let columns = COLUMNS
        .iter()
        .flat_map(|column| series.iter().map(move |of_t| (column, of_t)));
    let columns: Vec<(&Column, &Series)> = columns.collect();
    let heads = columns
        .iter()
        .map(|((call, _), of_t)| format!("{call}, t = {}", of_t.t));
    markdown::head(&["n"], &heads.collect::<Vec<_>>());
    for n in QUBITS {
        let cells = columns
            .iter()
            .map(|((_, times), of_t)| cell(of_t, n, *times));
        let cells = [n.to_string()].into_iter().chain(cells);
        markdown::row(&cells.collect::<Vec<_>>());
    }
}

/// Empty where there is no code.
fn cell(series: &Series, n: usize, of: fn(&Point) -> Times) -> String {
    let point = series.points.iter().find(|point| point.n == n);
    point.map_or(String::new(), |point| markdown::time(of(point)[LIBRARY]))
}
