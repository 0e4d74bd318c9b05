//! A table as aligned text.

/// Returns a title, a row of headings and the rows below; without rows, "none".
pub fn print(title: &str, heads: Vec<String>, rows: &[Vec<String>]) -> String {
    if rows.is_empty() {
        return format!("{title}: none\n");
    }
    let mut text = format!("{title}\n");
    let widths: Vec<usize> = (0..heads.len())
        .map(|column| rows.iter().chain([&heads]).map(|row| row[column].chars().count()).max().unwrap_or(0))
        .collect();
    for row in [&heads].into_iter().chain(rows) {
        let cells = row.iter().zip(&widths).map(|(cell, &width)| format!("  {cell:width$}"));
        text += cells.collect::<String>().trim_end();
        text.push('\n');
    }
    text
}
