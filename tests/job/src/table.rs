//! Tables in Markdown, to be pasted into a document.

/// A row.
pub fn line(cells: &[String]) {
    println!("| {} |", cells.join(" | "));
}

/// The first two lines.
pub fn head(names: &[&str]) {
    line(&names.iter().map(|name| name.to_string()).collect::<Vec<_>>());
    println!("|{}", "---|".repeat(names.len()));
}

/// A number, or a dash where there is none.
pub fn cell(value: Option<f64>, places: usize) -> String {
    value.map_or("-".to_string(), |value| format!("{value:.places$}"))
}

/// The first two lines of a table of ratios.
pub fn ratio_head() {
    head(&["ratio", "least", "most", "geometric mean", "jobs"]);
}

/// Least, most and geometric mean of a ratio over the jobs that have it; no row where none has.
pub fn ratio_line(name: &str, ratios: impl Iterator<Item = Option<f64>>) {
    let ratios: Vec<f64> = ratios.flatten().collect();
    if ratios.is_empty() {
        return;
    }
    let least = ratios.iter().copied().fold(f64::INFINITY, f64::min);
    let most = ratios.iter().copied().fold(0.0, f64::max);
    let numbers = [least, most, mean(&ratios)].map(|ratio| format!("{ratio:.2}"));
    line(&[&[name.to_string()], &numbers[..], &[ratios.len().to_string()]].concat());
}

/// The geometric mean.
fn mean(ratios: &[f64]) -> f64 {
    (ratios.iter().map(|ratio| ratio.ln()).sum::<f64>() / ratios.len() as f64).exp()
}

#[cfg(test)]
mod tests {
    use super::*;

    #[test]
    fn means_and_cells() {
        assert!((mean(&[2.0, 8.0]) - 4.0).abs() < 1e-9);
        assert_eq!([cell(None, 2), cell(Some(1.0 / 3.0), 2)], ["-", "0.33"]);
    }
}
