//! Rows of values under named columns, and how they are kept in a file: a line for each row, with
//! commas between.

use std::fmt::Display;
use std::fs;
use std::io;
use std::path::Path;

/// The data of one file.
pub struct Data {
    pub name: &'static str,
    columns: Vec<String>,
    rows: Vec<Vec<String>>,
}

/// The values of one row.
#[macro_export]
macro_rules! row {
    ($($value:expr),* $(,)?) => { vec![$($value.to_string()),*] };
}

impl Data {
    pub fn new(name: &'static str, columns: &str, rows: Vec<Vec<String>>) -> Self {
        let columns: Vec<String> = columns.split(',').map(String::from).collect();
        assert!(rows.iter().all(|row| row.len() == columns.len()), "{name}");
        Data {
            name,
            columns,
            rows,
        }
    }

    /// The name of the file in a folder of data.
    pub fn file(name: &str) -> String {
        format!("{name}.csv")
    }

    pub fn read(folder: &Path, name: &'static str) -> io::Result<Self> {
        let path = folder.join(Self::file(name));
        let text = fs::read_to_string(&path)
            .map_err(|e| io::Error::new(e.kind(), format!("{}: {e}", path.display())))?;
        Ok(Self::of(name, &text))
    }

    /// What a file of this text has.
    pub fn of(name: &'static str, text: &str) -> Self {
        let mut lines = text.lines();
        let columns = lines.next().unwrap_or_default();
        let rows = lines.map(|line| line.split(',').map(String::from).collect());
        Self::new(name, columns, rows.collect())
    }

    pub fn write(&self, folder: &Path) -> io::Result<()> {
        fs::write(folder.join(Self::file(self.name)), self.text())
    }

    pub fn text(&self) -> String {
        let lines = [&self.columns].into_iter().chain(&self.rows);
        lines.map(|line| line.join(",") + "\n").collect()
    }

    /// The rows of this one that the other, which has the same columns, has not.
    pub fn missing_in(&self, other: &Data) -> Vec<String> {
        assert_eq!(self.columns, other.columns, "columns of {}", self.name);
        let missing = self.rows.iter().filter(|row| !other.rows.contains(row));
        missing.map(|row| row.join(",")).collect()
    }

    pub fn len(&self) -> usize {
        self.rows.len()
    }

    pub fn is_empty(&self) -> bool {
        self.rows.is_empty()
    }

    pub fn rows(&self) -> impl Iterator<Item = Row<'_>> + Clone {
        self.rows.iter().map(|values| Row { data: self, values })
    }

    /// The rows that have these values in these columns.
    pub fn with<'a>(&'a self, wanted: &[(&str, &dyn Display)]) -> Vec<Row<'a>> {
        let wanted: Vec<(usize, String)> = wanted
            .iter()
            .map(|(column, value)| (self.column(column), value.to_string()))
            .collect();
        self.rows()
            .filter(|row| wanted.iter().all(|(at, value)| &row.values[*at] == value))
            .collect()
    }

    fn column(&self, name: &str) -> usize {
        let found = self.columns.iter().position(|column| column == name);
        found.unwrap_or_else(|| panic!("{} has no column {name}", self.name))
    }
}

/// One row.
#[derive(Clone, Copy)]
pub struct Row<'a> {
    data: &'a Data,
    values: &'a [String],
}

impl<'a> Row<'a> {
    pub fn text(&self, column: &str) -> &'a str {
        &self.values[self.data.column(column)]
    }

    pub fn number(&self, column: &str) -> f64 {
        let text = self.text(column);
        text.parse()
            .unwrap_or_else(|_| panic!("{column} of {} is no number: {text}", self.data.name))
    }
}

/// The data of every measurement, by name.
pub struct Set(pub Vec<Data>);

impl Set {
    pub fn get(&self, name: &str) -> &Data {
        let found = self.0.iter().find(|data| data.name == name);
        found.unwrap_or_else(|| panic!("there is no data {name}"))
    }
}
