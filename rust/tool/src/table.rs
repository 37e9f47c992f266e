//! Plain columns: fields parted by blanks, each column as wide as its widest field.

pub struct Table {
    rows: Vec<Vec<String>>,
}

impl Table {
    pub fn new(header: &[&str]) -> Table {
        Table { rows: vec![header.iter().map(|name| name.to_string()).collect()] }
    }

    pub fn row(&mut self, fields: Vec<String>) {
        self.rows.push(fields);
    }

    /// The rows, a line each: words begin at the left of their column, numbers end at its right.
    pub fn text(&self) -> String {
        let columns = self.rows.iter().map(Vec::len).max().unwrap_or(0);
        let mut width = vec![0; columns];
        let mut numbers = vec![true; columns];
        for (index, row) in self.rows.iter().enumerate() {
            for (column, field) in row.iter().enumerate() {
                width[column] = width[column].max(field.chars().count());
                numbers[column] &= index == 0 || field.parse::<f64>().is_ok();
            }
        }
        let mut text = String::new();
        for row in &self.rows {
            let mut line = String::new();
            for (column, field) in row.iter().enumerate() {
                let blanks = " ".repeat(width[column] - field.chars().count());
                if column > 0 {
                    line.push_str("  ");
                }
                match numbers[column] {
                    true => line.extend([blanks.as_str(), field.as_str()]),
                    false => line.extend([field.as_str(), blanks.as_str()]),
                }
            }
            text.push_str(line.trim_end());
            text.push('\n');
        }
        text
    }

    /// The rows as CSV: a field that says no is empty, and one with a comma or a quote stands in quotes.
    pub fn csv(&self) -> String {
        let field = |field: &String| match field.as_str() {
            "-" => String::new(),
            field if field.contains([',', '"', '\n', '\r']) => format!("\"{}\"", field.replace('"', "\"\"")),
            field => field.to_string(),
        };
        let line = |row: &Vec<String>| row.iter().map(field).collect::<Vec<_>>().join(",") + "\n";
        self.rows.iter().map(line).collect()
    }
}
