//! The picture of the layers in docs/ARCHITECTURE.md is what crates.txt says, its top layer first.

use crate::files::{Place, Repository};
use crate::layers;

const FILE: &str = "docs/ARCHITECTURE.md";
const HEADING: &str = "## Layers";
const COLUMNS: usize = 140;

/// A layer's name and its crates.
type Row = (String, Vec<String>);

pub fn check(repository: &Repository) -> Vec<Place> {
    let list = repository.file(layers::FILE);
    let mut expected: Vec<Row> = Vec::new();
    for layer in list.map_or(Vec::new(), |file| layers::read(file).0) {
        let crates = layer.crates.into_iter().map(|entry| entry.name);
        expected.insert(0, (layer.name, crates.collect()));
    }
    let text = repository.file(FILE).map_or("", |file| &file.text);
    let drawn = drawn(text);
    if drawn == expected {
        return Vec::new();
    }
    let heading = text.lines().position(|line| line == HEADING);
    let what = match heading {
        Some(_) => {
            "the picture of the layers is not what crates.txt says. It should be:".to_string()
        }
        None => format!("no `{HEADING}` with a picture of the layers. It should be:"),
    };
    vec![Place {
        file: FILE.to_string(),
        line: heading.map_or(1, |index| index + 1),
        what: format!("{what}\n\n{}", draw(&expected)),
    }]
}

/// The indented lines between the heading and the paragraph behind them. A name ends at two blanks;
/// a line without one goes on with the layer above.
fn drawn(text: &str) -> Vec<Row> {
    let behind = text.lines().skip_while(|line| *line != HEADING).skip(1);
    let block = behind.take_while(|line| line.starts_with("    ") || line.trim().is_empty());
    let mut rows: Vec<Row> = Vec::new();
    for line in block.filter(|line| !line.trim().is_empty()) {
        let line = &line[4..];
        let (name, crates) = line.split_once("  ").unwrap_or((line, ""));
        if !line.starts_with(' ') {
            rows.push((name.to_string(), Vec::new()));
        }
        if let Some(row) = rows.last_mut() {
            let crates = if line.starts_with(' ') { line } else { crates };
            row.1.extend(crates.split_whitespace().map(str::to_string));
        }
    }
    rows
}

fn draw(rows: &[Row]) -> String {
    let widest = rows.iter().map(|row| row.0.chars().count()).max();
    let column = widest.unwrap_or(0) + 2;
    let mut block = String::new();
    for (name, crates) in rows {
        let mut line = format!("    {name:column$}");
        let empty = line.chars().count();
        for one in crates {
            let length = line.chars().count();
            if length > empty && length + 2 + one.len() > COLUMNS {
                block += line.trim_end();
                block.push('\n');
                line = " ".repeat(empty);
            }
            if line.chars().count() > empty {
                line += "  ";
            }
            line += one;
        }
        block += line.trim_end();
        block.push('\n');
    }
    block
}

#[cfg(test)]
mod tests {
    use super::*;

    const LIST: &str = "# ground: all\nbase:\nbits:\n\n# the top\ntext: base\n";

    fn with(page: &str) -> Vec<String> {
        let places = check(&Repository::of(&[("crates.txt", LIST), (FILE, page)]));
        crate::files::said(&places)
    }

    #[test]
    fn the_same_layers() {
        let page = "\
# A

## Layers

    the top      text
    ground: all  base
                 bits

More.

    another block
";
        assert_eq!(with(page), [""; 0]);
    }

    #[test]
    fn another_name_member_or_order() {
        let block = "    the top      text\n    ground: all  base  bits\n";
        for page in [
            "## Layers\n\n    top          text\n    ground: all  base  bits\n",
            "## Layers\n\n    the top      text\n    ground: all  base\n",
            "## Layers\n\n    ground: all  base  bits\n    the top      text\n",
        ] {
            let said = with(page);
            assert!(said.len() == 1 && said[0].ends_with(&format!(":\n\n{block}")));
            assert_eq!(with(&format!("## Layers\n\n{block}\nMore.\n")), [""; 0]);
        }
    }

    #[test]
    fn no_picture() {
        assert_eq!(with("# A\n").len(), 1);
    }

    #[test]
    fn a_long_layer_takes_several_lines() {
        let crates: Vec<String> = (0..40).map(|n| format!("crate_{n}")).collect();
        let rows = vec![("many".to_string(), crates)];
        let block = draw(&rows);
        assert!(block.lines().count() > 1);
        assert!(block.lines().all(|line| line.len() <= COLUMNS));
        assert_eq!(drawn(&format!("{HEADING}\n\n{block}\nMore.\n")), rows);
    }
}
