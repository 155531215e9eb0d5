//! Markdown tables.

/// A table with its columns aligned, numbers to the right; the first `left` columns are names.
pub fn table(left: usize, head: &[String], rows: &[Vec<String>]) -> String {
    let all: Vec<&[String]> = [head].into_iter().chain(rows.iter().map(Vec::as_slice)).collect();
    let widths: Vec<usize> =
        (0..head.len()).map(|c| all.iter().map(|row| row[c].chars().count()).max().unwrap_or(0)).collect();
    let line = |row: &[String]| {
        let cells =
            row.iter().zip(&widths).enumerate().map(|(c, (cell, &width))| {
                if c < left { format!("{cell:<width$}") } else { format!("{cell:>width$}") }
            });
        format!("| {} |\n", cells.collect::<Vec<_>>().join(" | "))
    };
    let rule: Vec<String> = (widths.iter().enumerate())
        .map(|(c, &width)| if c < left { "-".repeat(width) } else { format!("{}:", "-".repeat(width - 1)) })
        .collect();
    let mut text = line(head);
    text += &line(&rule);
    rows.iter().for_each(|row| text += &line(row));
    text
}

/// One row for each s and one column for each r, below a heading of its own.
pub fn grid(name: &str, parts: &[(String, Vec<Vec<String>>)], degrees: &[u32]) -> String {
    let mut head = vec![name.to_string(), "s".into()];
    head.extend(degrees.iter().map(|r| format!("r = {r}")));
    let mut rows = Vec::new();
    for (part, cells) in parts {
        for (s, cells) in degrees.iter().zip(cells) {
            let mut row = vec![part.clone(), s.to_string()];
            row.extend(cells.iter().cloned());
            rows.push(row);
        }
    }
    table(1, &head, &rows)
}

/// A whole number with its thousands apart.
pub fn thousands(n: usize) -> String {
    if n < 1_000 { n.to_string() } else { format!("{},{:03}", thousands(n / 1_000), n % 1_000) }
}
