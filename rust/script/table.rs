//! Tables of the script. A row that nothing matches is an error, so that none outlives what it was for.

use std::cell::Cell;

/// Rows of columns between bars.
pub struct Table {
    name: &'static str,
    rows: Vec<Row>,
}

struct Row {
    line: usize,
    columns: Vec<&'static str>,
    is_used: Cell<bool>,
}

impl Table {
    /// Reads a table. Lines that begin with `#` are comments.
    pub fn new(name: &'static str, text: &'static str) -> Table {
        let lines = text.lines().enumerate();
        let is_row = |text: &str| !text.trim().is_empty() && !text.starts_with('#');
        let rows = lines
            .filter(|(_, text)| is_row(text))
            .map(|(at, text)| Row {
                line: at + 1,
                columns: text.split(" | ").map(str::trim).collect(),
                is_used: Cell::new(false),
            });
        let rows = rows.collect();
        Table { name, rows }
    }

    /// What a function says of the first row of which it says something. That row is used.
    pub fn find_map<T>(&self, of_row: impl Fn(&[&'static str]) -> Option<T>) -> Option<T> {
        self.rows.iter().find_map(|row| {
            let found = of_row(&row.columns)?;
            row.is_used.set(true);
            Some(found)
        })
    }

    /// The columns of each row.
    pub fn rows(&self) -> impl Iterator<Item = &[&'static str]> {
        self.rows.iter().map(|row| row.columns.as_slice())
    }

    /// The rows that nothing matched.
    pub fn unused(&self) -> Vec<String> {
        let unused = self.rows.iter().filter(|row| !row.is_used.get());
        let name = |row: &Row| {
            format!(
                "rust/script/{}:{}: nothing matches {}",
                self.name, row.line, row.columns[0]
            )
        };
        unused.map(name).collect()
    }
}
