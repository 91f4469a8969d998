//! The page: its tables by heading and columns, its blocks.

use std::cell::RefCell;

pub struct Page {
    pub text: String,
    tables: Vec<Table>,
    /// The blocks that say what a command prints, with their headings.
    printed: Vec<(String, String)>,
    /// Which tables a check has asked for.
    asked: RefCell<Vec<bool>>,
}

pub struct Table {
    pub heading: String,
    /// Of its head in the page.
    pub line: usize,
    pub columns: Vec<String>,
    pub rows: Vec<Vec<String>>,
    /// Of each row in the page.
    lines: Vec<usize>,
}

impl Page {
    pub fn of(text: &str) -> Result<Page, String> {
        let mut page = Page {
            text: text.to_string(),
            tables: Vec::new(),
            printed: Vec::new(),
            asked: RefCell::default(),
        };
        let mut heading = String::new();
        let mut open = false;
        let mut fence: Option<&str> = None;
        for (at, line) in text.lines().enumerate() {
            let number = at + 1;
            if let Some(kind) = line.strip_prefix("```") {
                fence = match fence {
                    Some(_) => None,
                    None => Some(kind),
                };
                if fence == Some("text") {
                    page.printed.push((heading.clone(), String::new()));
                }
                continue;
            }
            if let Some(kind) = fence {
                if let (Some((_, block)), "text") = (page.printed.last_mut(), kind) {
                    block.push_str(line);
                    block.push('\n');
                }
                continue;
            }
            if line.starts_with('#') {
                heading = line.trim_start_matches('#').trim().to_string();
            }
            let Some(cells) = cells(line) else {
                open = false;
                continue;
            };
            if !open {
                page.tables.push(Table {
                    heading: heading.clone(),
                    line: number,
                    columns: cells,
                    rows: Vec::new(),
                    lines: Vec::new(),
                });
                open = true;
                continue;
            }
            let table = page.tables.last_mut().expect("a table is open");
            if cells.iter().all(|cell| cell == "---") {
                continue;
            }
            ensure!(
                cells.len() == table.columns.len(),
                "line {number}: {} cells under {} columns",
                cells.len(),
                table.columns.len()
            );
            table.rows.push(cells);
            table.lines.push(number);
        }
        page.asked = RefCell::new(vec![false; page.tables.len()]);
        Ok(page)
    }

    /// The one table of this heading with these columns.
    pub fn table(&self, heading: &str, columns: &[&str]) -> Result<&Table, String> {
        let [table] = self.alike(heading, columns)?;
        Ok(table)
    }

    /// The tables of this heading with these columns.
    pub fn alike<const N: usize>(
        &self,
        heading: &str,
        columns: &[&str],
    ) -> Result<[&Table; N], String> {
        let is_asked = |table: &Table| table.heading == heading && table.columns == columns;
        let mut found = Vec::new();
        for (place, table) in self.tables.iter().enumerate() {
            if is_asked(table) {
                ensure!(!table.rows.is_empty(), "line {}: no rows", table.line);
                self.asked.borrow_mut()[place] = true;
                found.push(table);
            }
        }
        let number = found.len();
        found.try_into().map_err(|_| {
            format!(
                "{number} tables '{}' under '{heading}', where {N} are asked for",
                columns.join(" | ")
            )
        })
    }

    /// Whether the page has these words, on however many lines.
    pub fn says(&self, words: &str) -> bool {
        let text: Vec<&str> = self.text.split_whitespace().collect();
        text.join(" ").contains(words)
    }

    pub fn tables(&self) -> &[Table] {
        &self.tables
    }

    /// What a command under this heading prints.
    pub fn printed(&self, heading: &str) -> Result<&str, String> {
        let block = self.printed.iter().find(|(of, _)| of == heading);
        block
            .map(|(_, text)| &text[..])
            .ok_or(format!("no text block under '{heading}'"))
    }

    /// Tables that no check has asked for.
    pub fn unasked(&self) -> Vec<String> {
        let asked = self.asked.borrow();
        let tables = self.tables.iter().zip(asked.iter());
        tables
            .filter(|(_, &asked)| !asked)
            .map(|(table, _)| format!("line {}: no check asks for this table", table.line))
            .collect()
    }

    /// The lines of all rows.
    pub fn row_lines(&self) -> Vec<usize> {
        let tables = self.tables.iter();
        tables.flat_map(|table| table.lines.clone()).collect()
    }

    /// Tables and their rows.
    pub fn size(&self) -> (usize, usize) {
        let rows = self.tables.iter().map(|table| table.rows.len());
        (self.tables.len(), rows.sum())
    }
}

/// Of a table's line; quotation marks of code fall away.
fn cells(line: &str) -> Option<Vec<String>> {
    let inner = line.strip_prefix('|')?.strip_suffix('|')?;
    Some(
        inner
            .split('|')
            .map(|cell| cell.trim().replace('`', ""))
            .collect(),
    )
}

impl Table {
    /// The same with its first rows alone.
    pub fn front(&self, rows: usize) -> Table {
        Table {
            heading: self.heading.clone(),
            line: self.line,
            columns: self.columns.clone(),
            rows: self.rows[..rows].to_vec(),
            lines: self.lines[..rows].to_vec(),
        }
    }

    pub fn column(&self, name: &str) -> Option<usize> {
        self.columns.iter().position(|column| column == name)
    }

    /// The rows, each as an array in the order of the columns.
    pub fn each<const N: usize>(&self) -> impl Iterator<Item = [&str; N]> {
        self.rows.iter().map(|row| {
            let cells: Vec<&str> = row.iter().map(String::as_str).collect();
            cells.try_into().expect("as many columns as were asked for")
        })
    }

    /// Asks that the cells of the first column are these, in any order.
    pub fn has(&self, keys: &[&str]) -> Result<(), String> {
        let mut found: Vec<&str> = self.rows.iter().map(|row| &row[0][..]).collect();
        let mut asked = keys.to_vec();
        found.sort_unstable();
        asked.sort_unstable();
        for key in &asked {
            ensure!(found.contains(key), "line {}: no row '{key}'", self.line);
        }
        for key in &found {
            ensure!(
                asked.contains(key),
                "line {}: a row '{key}' that no check knows",
                self.line
            );
        }
        ensure!(
            found == asked,
            "line {}: a row that stands too often or not often enough",
            self.line
        );
        Ok(())
    }
}
