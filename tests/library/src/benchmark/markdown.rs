//! Tables as Markdown.

/// The head of a table whose first columns are names and whose other columns are numbers.
pub fn head(names: &[&str], numbers: &[impl AsRef<str>]) {
    let numbers = numbers.iter().map(AsRef::as_ref);
    let columns: Vec<&str> = names.iter().copied().chain(numbers).collect();
    row(&columns);
    let rule = |at| if at < names.len() { "---" } else { "--:" };
    row(&(0..columns.len()).map(rule).collect::<Vec<_>>());
}

pub fn row(cells: &[impl AsRef<str>]) {
    let cells: Vec<&str> = cells.iter().map(AsRef::as_ref).collect();
    println!("| {} |", cells.join(" | "));
}

/// Seconds, with three digits.
pub fn time(seconds: f64) -> String {
    let units = [(1e-9, "ns"), (1e-6, "µs"), (1e-3, "ms"), (1.0, "s")];
    let fits = |(unit, _): &&(f64, &str)| seconds < 999.5 * unit;
    let (unit, name) = { units.iter() }.find(fits).unwrap_or(&units[3]);
    let value = seconds / unit;
    let decimals = match value {
        v if v < 9.995 => 2,
        v if v < 99.95 => 1,
        _ => 0,
    };
    format!("{value:.decimals$} {name}")
}

pub fn ratio(one: f64, other: f64) -> String {
    format!("{:.2}", one / other)
}

/// With a comma behind the thousands.
pub fn count(number: u64) -> String {
    match number {
        0..=999 => number.to_string(),
        _ => format!("{},{:03}", count(number / 1000), number % 1000),
    }
}

#[cfg(test)]
mod tests {
    use super::*;

    #[test]
    fn numbers_have_their_units() {
        let times = [0.0, 12.34e-9, 999.4e-9, 999.6e-9, 9.996e-6, 0.05349, 1.5];
        let texts = [
            "0.00 ns", "12.3 ns", "999 ns", "1.00 µs", "10.0 µs", "53.5 ms", "1.50 s",
        ];
        assert_eq!(times.map(time), texts);
        assert_eq!(ratio(1.0, 3.0), "0.33");
        assert_eq!(
            [0, 999, 1000, 57_205, 109_366_867].map(count),
            ["0", "999", "1,000", "57,205", "109,366,867"]
        );
    }
}
