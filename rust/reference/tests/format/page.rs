//! The page and its tables.

use std::path::Path;

/// A table: its titles, and the cells of its rows.
pub struct Table {
    titles: Vec<String>,
    pub rows: Vec<Vec<String>>,
}

impl Table {
    /// The column with this title, if there is one.
    pub fn column(&self, title: &str) -> Option<usize> {
        self.titles.iter().position(|other| other == title)
    }
}

/// A file of the repository.
pub fn file(name: &str) -> String {
    let path = Path::new(env!("CARGO_MANIFEST_DIR")).join("../..").join(name);
    std::fs::read_to_string(&path).unwrap_or_else(|error| panic!("{name}: {error}"))
}

pub fn page() -> String {
    file("docs/FORMAT.md")
}

/// All tables of the page, in order.
pub fn tables() -> Vec<Table> {
    let text = page();
    let lines: Vec<&str> = text.lines().collect();
    let blocks = lines.split(|line| !line.starts_with('|')).filter(|block| !block.is_empty());
    blocks.map(table_of).collect()
}

fn table_of(block: &[&str]) -> Table {
    let mut rows = block.iter().map(|line| cells(line));
    let titles = rows.next().expect("a row of titles");
    let rule = rows.next().expect("a row of dashes");
    assert!(rule.iter().all(|cell| cell == "---"), "below {titles:?}: {rule:?}");
    let rows: Vec<Vec<String>> = rows.collect();
    for row in &rows {
        assert_eq!(row.len(), titles.len(), "{row:?}");
    }
    Table { titles, rows }
}

/// The cells of a row. A bar behind a backslash is no end of a cell.
fn cells(line: &str) -> Vec<String> {
    const BAR: &str = "\u{1}";
    let hidden = line.replace("\\|", BAR);
    let inner = hidden.strip_prefix('|').and_then(|rest| rest.strip_suffix('|'));
    let inner = inner.unwrap_or_else(|| panic!("no row: {line}"));
    inner.split('|').map(|cell| cell.trim().replace(BAR, "|")).collect()
}

/// The only table with these titles.
pub fn table<const N: usize>(titles: [&str; N]) -> Vec<[String; N]> {
    let found: Vec<Table> = tables().into_iter().filter(|table| table.titles == titles).collect();
    assert_eq!(found.len(), 1, "tables with the titles {titles:?}");
    let rows = found.into_iter().flat_map(|table| table.rows);
    rows.map(|row| row.try_into().expect("as many cells as titles")).collect()
}

/// A number of the page.
pub fn number(cell: &str) -> u32 {
    cell.parse().unwrap_or_else(|_| panic!("no number: {cell}"))
}

/// A list such as `1, 2, 5 to 7`; an empty cell has none.
pub fn numbers(cell: &str) -> Vec<u32> {
    let parts = cell.split(", ").filter(|part| !part.is_empty());
    parts
        .flat_map(|part| match part.split_once(" to ") {
            Some((first, last)) => (number(first)..=number(last)).collect::<Vec<u32>>(),
            None => vec![number(part)],
        })
        .collect()
}

/// What stands between backticks in a cell, and the words between these.
pub fn spans(cell: &str) -> (Vec<&str>, Vec<&str>) {
    let (mut codes, mut words) = (Vec::new(), Vec::new());
    for (index, part) in cell.split('`').enumerate() {
        match index % 2 {
            0 => words.push(part.trim()),
            _ => codes.push(part),
        }
    }
    (codes, words)
}
