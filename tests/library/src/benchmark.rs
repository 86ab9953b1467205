//! The time that calls take: through the library, and as one would write them in Rust. A time is no test, and nothing
//! fails where it is long; but every answer is compared before it is timed.
//!
//! The tables come out as Markdown.

mod codes;
mod growth;
mod markdown;
mod plot;
mod questions;
mod timing;

use codes::Known;
use independent::strings::string_count;
use markdown::{count, ratio, row, time};
use std::fs;
use std::path::Path;
use timing::Times;

/// Prints the tables, and draws the growth into a file.
pub fn benchmark(plot: Option<&Path>) {
    let known = codes::known();
    admissions(&known);
    decodes(&known);
    canonicals(&known);
    reports(&known);
    let series = growth::measured();
    growth::print(&series);
    if let Some(file) = plot {
        fs::write(file, plot::drawn(&series)).expect("the file of the plot is written");
    }
}

/// A table whose rows have names and the times of one call.
fn table(title: &str, names: [&str; 2], rows: impl Iterator<Item = ([String; 2], Times)>) {
    println!("\n{title}\n");
    let times = [
        "Rust, scan",
        "Rust, table",
        "Reinoften",
        "Ratio to scan",
        "Ratio to table",
    ];
    markdown::head(&names, &times);
    for (names, [scan, table, library]) in rows {
        let times = [scan, table, library].map(time);
        let ratios = [scan, table].map(|rust| ratio(library, rust));
        row(&[&names[..], &times, &ratios].concat());
    }
}

fn admissions(known: &[Known]) {
    let rows = known.iter().map(|code| {
        let strings = string_count(code.code.n, code.code.d - 1);
        let names = [code.name(), count(strings)];
        (names, questions::admission(&code.sheet))
    });
    let title = "Admission: a sheet is read and checked.";
    table(title, ["Code", "Strings"], rows);
}

fn decodes(known: &[Known]) {
    let rows = known.iter().flat_map(|code| {
        let decoded = code.syndromes().into_iter().map(|(ends, syndrome)| {
            let names = [code.name(), ends.to_string()];
            (names, questions::decode(&code.code, &syndrome))
        });
        decoded.collect::<Vec<_>>()
    });
    let title = "Decoding, where the search ends early, late, or with `none`.";
    table(title, ["Code", "Search"], rows);
    let rows = known.iter().map(|code| {
        let (ends, syndrome) = &code.syndromes()[0];
        let names = [code.name(), ends.to_string()];
        (names, questions::correct(&code.code, syndrome))
    });
    table("Decoding by value.", ["Code", "Search"], rows);
}

fn canonicals(known: &[Known]) {
    println!("\nCanonical generators, which need no search.\n");
    markdown::head(&["Code"], &["Rust", "Reinoften", "Ratio"]);
    for code in known {
        let [rust, library] = questions::canonical(&code.code);
        row(&[code.name(), time(rust), time(library), ratio(library, rust)]);
    }
}

fn reports(known: &[Known]) {
    let rows = known.iter().flat_map(|code| {
        [2, code.most_syndromes()].map(|syndromes| {
            let names = [code.name(), syndromes.to_string()];
            (names, questions::report(&code.with_syndromes(syndromes)))
        })
    });
    let title = "Reports, of a sheet with few syndromes or with as many as an input has room for.";
    table(title, ["Code", "Syndromes"], rows);
}
