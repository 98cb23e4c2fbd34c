//! Tables in markdown.

/// A cell of a time in seconds, written in microseconds with three digits or more.
pub(crate) fn microseconds(seconds: Option<f64>) -> String {
    seconds.map_or_else(dash, |seconds| digits(seconds * 1e6))
}

/// A cell of a ratio, three digits or more.
pub(crate) fn ratio(above: Option<f64>, below: Option<f64>) -> String {
    above
        .zip(below)
        .map_or_else(dash, |(above, below)| digits(above / below))
}

fn dash() -> String {
    "-".to_owned()
}

fn digits(number: f64) -> String {
    let decimals = match number {
        ..10.0 => 2,
        ..100.0 => 1,
        _ => 0,
    };
    format!("{number:.decimals$}")
}

/// A row of a table.
pub(crate) fn row<'a>(cells: impl IntoIterator<Item = &'a str>) -> String {
    let cells: Vec<&str> = cells.into_iter().collect();
    format!("| {} |", cells.join(" | "))
}

/// The head of a table: its first columns hold words, the rest numbers.
pub(crate) fn head(words: &[&str], numbers: &[&str]) -> String {
    let names = row(words.iter().chain(numbers).copied());
    let left = words.iter().map(|_| "---");
    let right = numbers.iter().map(|_| "---:");
    format!("{names}\n{}", row(left.chain(right)))
}

#[cfg(test)]
mod tests {
    use super::*;

    #[test]
    fn cells_have_three_digits_or_more() {
        assert_eq!(microseconds(Some(0.000_001_234)), "1.23");
        assert_eq!(microseconds(Some(0.000_012_34)), "12.3");
        assert_eq!(microseconds(Some(0.012_345_6)), "12346");
        assert_eq!(microseconds(None), "-");
        assert_eq!(ratio(Some(3.0), Some(2.0)), "1.50");
        assert_eq!(ratio(None, Some(2.0)), "-");
        assert_eq!(ratio(Some(3.0), None), "-");
    }

    #[test]
    fn a_table_has_a_head() {
        assert_eq!(
            head(&["a"], &["b", "c"]),
            "| a | b | c |\n| --- | ---: | ---: |"
        );
    }
}
