//! Tables of words and numbers in columns.

/// A table: the heads of its columns, and its rows.
pub struct Table {
    heads: Vec<&'static str>,
    rows: Vec<Vec<String>>,
    /// The columns that hold words, which stand at the left; numbers stand at the right.
    words: &'static [usize],
}

impl Table {
    pub fn new(heads: &[&'static str], words: &'static [usize]) -> Table {
        Table { heads: heads.to_vec(), rows: Vec::new(), words }
    }

    pub fn row(&mut self, cells: Vec<String>) {
        self.rows.push(cells);
    }

    pub fn heads(&self) -> &[&'static str] {
        &self.heads
    }

    pub fn rows(&self) -> &[Vec<String>] {
        &self.rows
    }

    /// Whether a column holds words.
    pub fn has_words(&self, column: usize) -> bool {
        self.words.contains(&column)
    }

    /// Each line is ended by LF and has no blanks before it.
    pub fn text(&self) -> String {
        let heads: Vec<String> = self.heads.iter().map(|head| head.to_string()).collect();
        let lines = || std::iter::once(&heads).chain(&self.rows);
        let width = |column: usize| lines().map(|row| row[column].chars().count()).max().unwrap_or(0);
        let widths: Vec<usize> = (0..heads.len()).map(width).collect();
        lines().map(|row| self.line(row, &widths)).collect()
    }

    fn line(&self, row: &[String], widths: &[usize]) -> String {
        let cell = |(column, text): (usize, &String)| match self.has_words(column) {
            true => format!("{text:<0$}", widths[column]),
            false => format!("{text:>0$}", widths[column]),
        };
        let cells: Vec<String> = row.iter().enumerate().map(cell).collect();
        format!("{}\n", cells.join("  ").trim_end())
    }
}

/// Numbers separated by blanks, at most this many of them.
pub fn listed<T: ToString>(numbers: &[T], most: usize) -> String {
    let mut words: Vec<String> = numbers.iter().take(most).map(T::to_string).collect();
    if numbers.len() > most {
        words.push(format!(".. ({} in all)", numbers.len()));
    }
    words.join(" ")
}

/// A number of things: `1 node`, `2 nodes`.
pub fn counted(number: usize, thing: &str) -> String {
    format!("{number} {thing}{}", if number == 1 { "" } else { "s" })
}

#[cfg(test)]
mod tests {
    use super::*;

    #[test]
    fn words_stand_left_and_numbers_right() {
        let mut table = Table::new(&["net", "nodes"], &[1]);
        table.row(vec![String::from("7"), String::from("1 2")]);
        table.row(vec![String::from("1000"), String::new()]);
        assert_eq!(table.text(), " net  nodes\n   7  1 2\n1000\n");
    }

    #[test]
    fn long_lists_are_cut() {
        assert_eq!(listed(&[1, 2], 2), "1 2");
        assert_eq!(listed(&[1, 2, 3], 2), "1 2 .. (3 in all)");
    }
}
