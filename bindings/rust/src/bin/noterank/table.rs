//! Tables of plain text.

/// Columns two spaces apart, each as wide as its widest cell and set to the right.
pub fn table(rows: &[Vec<String>]) -> String {
    let columns = rows.first().map_or(0, Vec::len);
    let width = |column: usize| rows.iter().map(|row| row[column].chars().count()).max();
    let widths: Vec<usize> = (0..columns).map(|column| width(column).unwrap_or(0)).collect();
    let line = |row: &Vec<String>| {
        let cells = row.iter().zip(&widths).map(|(cell, &width)| format!("{cell:>width$}"));
        format!("{}\n", cells.collect::<Vec<_>>().join("  ").trim_end())
    };
    rows.iter().map(line).collect()
}

/// A row of words.
pub fn row(cells: &[&str]) -> Vec<String> {
    cells.iter().map(|cell| cell.to_string()).collect()
}

/// Scores, each in the fewest digits that read back as the same number, set to the point.
pub fn scores(scores: impl Iterator<Item = f32>) -> Vec<String> {
    let texts: Vec<String> = scores.map(|score| score.to_string()).collect();
    let behind = |text: &str| text.find('.').map_or(0, |point| text.len() - point);
    let widest = texts.iter().map(|text| behind(text)).max().unwrap_or(0);
    let padded = |text: &String| format!("{text}{:1$}", "", widest - behind(text));
    texts.iter().map(padded).collect()
}

#[cfg(test)]
mod tests {
    use super::*;

    #[test]
    fn columns_are_set_to_the_right() {
        let rows = [row(&["rank", "document"]), row(&["1", "12"]), row(&["10", ""])];
        assert_eq!(table(&rows), "rank  document\n   1        12\n  10\n");
        assert_eq!(table(&[]), "");
    }

    #[test]
    fn scores_are_set_to_the_point() {
        let texts = scores([12.5, 3.0, 0.125].into_iter());
        assert_eq!(texts, ["12.5  ", "3    ", "0.125"]);
    }
}
