//! The table that is printed: a row for each workload, of words without blanks, so that tools/bench.py can read it
//! again.

use crate::workloads::Named;

/// What a workload took.
pub struct Row {
    pub name: String,
    pub unit: String,
    pub ours: f64,
    pub theirs: f64,
    pub medians: Option<(f64, f64)>,
}

impl Row {
    fn ratio(&self) -> f64 {
        self.ours / self.theirs
    }
}

/// Tells the row of each workload as it comes, in two tables: workloads with a summary, and points of growth.
pub fn tell(all: &[&Named], rows: impl Iterator<Item = Result<Row, String>>) -> Result<(), String> {
    let mut told: Vec<Row> = Vec::new();
    let mut is_growth = false;
    for (named, row) in all.iter().zip(rows) {
        let row = row?;
        if named.is_growth && !is_growth {
            end(&told);
            told.clear();
            is_growth = true;
        }
        if told.is_empty() {
            println!("{}", heading(&row));
        }
        println!("{}", line(&row));
        told.push(row);
    }
    if !is_growth {
        end(&told);
    }
    Ok(())
}

/// Ends the first table.
fn end(told: &[Row]) {
    if !told.is_empty() {
        println!("{}\n", summary(told));
    }
}

fn heading(row: &Row) -> String {
    let start = format!("{:<30} {:>20} {:>11} {:>10} {:>7}", "name", "unit", "ours", "theirs", "ratio");
    match row.medians {
        Some(_) => format!("{start} {:>11} {:>13}", "ours-median", "theirs-median"),
        None => start,
    }
}

fn line(row: &Row) -> String {
    let ratio = row.ratio();
    let start =
        format!("{:<30} {:>20} {:>11.2} {:>10.2} {ratio:>7.2}", row.name, row.unit, row.ours, row.theirs);
    match row.medians {
        Some((ours, theirs)) => format!("{start} {ours:>11.2} {theirs:>13.2}"),
        None => start,
    }
}

fn summary(rows: &[Row]) -> String {
    let worst = rows.iter().max_by(|one, other| one.ratio().total_cmp(&other.ratio())).expect("a row");
    let mean = (rows.iter().map(|row| row.ratio().ln()).sum::<f64>() / rows.len() as f64).exp();
    format!(
        "# {} workloads: the worst ratio is {:.2}, {}; the geometric mean is {mean:.2}",
        rows.len(),
        worst.ratio(),
        worst.name
    )
}

#[cfg(test)]
mod tests {
    use super::*;

    fn row(name: &str, ours: f64, theirs: f64) -> Row {
        Row { name: name.into(), unit: "ns/step".into(), ours, theirs, medians: Some((ours, theirs)) }
    }

    #[test]
    fn a_line_has_the_words_of_its_heading() {
        let row = row("step/call-loop", 12.0, 8.0);
        let words: Vec<String> = line(&row).split_whitespace().map(String::from).collect();
        assert_eq!(words, ["step/call-loop", "ns/step", "12.00", "8.00", "1.50", "12.00", "8.00"]);
        assert_eq!(heading(&row).split_whitespace().count(), words.len());
        let counted = Row { ours: 13_068_179.5, unit: "instructions/listing".into(), medians: None, ..row };
        assert_eq!(heading(&counted).split_whitespace().count(), line(&counted).split_whitespace().count());
    }

    #[test]
    fn the_summary_tells_the_worst_and_the_mean() {
        let rows = [row("one", 8.0, 1.0), row("other", 1.0, 2.0)];
        assert_eq!(summary(&rows), "# 2 workloads: the worst ratio is 8.00, one; the geometric mean is 2.00");
    }
}
