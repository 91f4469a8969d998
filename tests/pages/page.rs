//! A page: its blocks of code, its running text, and the code spans of that.

use std::ops::Range;

/// A block between fences, or of indented lines.
pub struct Block {
    /// The line on which it begins, counted from 1; of a fenced one, that of the fence.
    pub line: usize,
    pub fenced: bool,
    /// The word behind the fence; an indented block has none.
    pub label: String,
    /// Its lines, each with its end, without the indentation of the fence.
    pub text: String,
}

impl Block {
    pub fn is_commands(&self) -> bool {
        self.label == "sh"
    }

    /// Whether it is what the commands before it print.
    pub fn is_printed(&self) -> bool {
        self.label == "text"
    }
}

#[derive(Default)]
pub struct Page {
    pub blocks: Vec<Block>,
    /// The page with its blocks as empty lines.
    pub prose: String,
    /// The line of a fence that nothing closes.
    pub open: Option<usize>,
}

const INDENTED: &str = "    ";

impl Page {
    pub fn of(text: &str) -> Page {
        let mut page = Page::default();
        let mut lines = (1..).zip(text.lines()).peekable();
        let mut behind_empty = true;
        while let Some((number, line)) = lines.next() {
            let indentation = line.len() - line.trim_start().len();
            let mut block = Block {
                line: number,
                fenced: false,
                label: String::new(),
                text: String::new(),
            };
            if let Some(fence) = fence(line) {
                block.fenced = true;
                block.label = line.trim_start()[fence.len()..].trim().to_string();
                page.prose.push('\n');
                page.open = Some(number);
                for (_, line) in lines.by_ref() {
                    page.prose.push('\n');
                    if line.trim_end().trim_start() == fence {
                        page.open = None;
                        break;
                    }
                    let blank = line.len() - line.trim_start().len();
                    block.text += &line[indentation.min(blank)..];
                    block.text.push('\n');
                }
                page.blocks.push(block);
                behind_empty = true;
            } else if behind_empty && line.starts_with(INDENTED) {
                block.text = format!("{}\n", &line[INDENTED.len()..]);
                page.prose.push('\n');
                while let Some((_, line)) = lines.next_if(|(_, line)| line.starts_with(INDENTED)) {
                    block.text += &line[INDENTED.len()..];
                    block.text.push('\n');
                    page.prose.push('\n');
                }
                page.blocks.push(block);
            } else {
                page.prose += line;
                page.prose.push('\n');
                behind_empty = line.trim().is_empty();
            }
        }
        page
    }

    /// The code spans, each with its line; one that goes on over a line's end is shown in one line.
    pub fn spans(&self) -> Vec<(usize, String)> {
        let spans = ranges(&self.prose).into_iter().map(|range| {
            let words = self.prose[range.clone()].trim_matches('`');
            let words: Vec<&str> = words.split_whitespace().collect();
            (line_of(&self.prose, range.start), words.join(" "))
        });
        spans.collect()
    }

    /// The running text with its code spans as blanks.
    pub fn plain(&self) -> String {
        let mut plain = self.prose.clone();
        for range in ranges(&self.prose) {
            let blanks = self.prose[range.clone()].bytes();
            let blanks = blanks.map(|byte| if byte == b'\n' { '\n' } else { ' ' });
            plain.replace_range(range, &blanks.collect::<String>());
        }
        plain
    }
}

/// The backticks or tildes with which a line begins, if it opens or closes a block.
fn fence(line: &str) -> Option<&str> {
    let line = line.trim_start();
    let sign = line.chars().next().filter(|sign| "`~".contains(*sign))?;
    let length = line.len() - line.trim_start_matches(sign).len();
    let is_span = line[length..].contains('`');
    (length >= 3 && !is_span).then(|| &line[..length])
}

/// Where code spans stand, with their backticks; none goes on over an empty line.
fn ranges(prose: &str) -> Vec<Range<usize>> {
    let mut ranges = Vec::new();
    let mut at = 0;
    while let Some(found) = prose[at..].find('`') {
        let start = at + found;
        let ticks = ticks_at(prose, start);
        let end = prose[start..]
            .find("\n\n")
            .map_or(prose.len(), |found| start + found);
        at = start + ticks;
        let mut close = at;
        while let Some(found) = prose[close..end].find('`') {
            close += found;
            let found = ticks_at(prose, close);
            close += found;
            if found == ticks {
                ranges.push(start..close);
                at = close;
                break;
            }
        }
    }
    ranges
}

fn ticks_at(text: &str, at: usize) -> usize {
    text[at..].len() - text[at..].trim_start_matches('`').len()
}

/// The line of a place in a text, counted from 1.
pub fn line_of(text: &str, at: usize) -> usize {
    text[..at].matches('\n').count() + 1
}

/// The commands of a block, a line each: lines that end in `\` go on, comments and empty lines are
/// left out.
pub fn command_lines(text: &str) -> Vec<String> {
    let joined = text.replace("\\\n", " ");
    let lines = joined.lines().map(|line| {
        let line = line.trim();
        let comment = if line.starts_with('#') {
            Some(0)
        } else {
            line.find(" #")
        };
        let words = line[..comment.unwrap_or(line.len())].split_whitespace();
        words.collect::<Vec<_>>().join(" ")
    });
    lines.filter(|line| !line.is_empty()).collect()
}

#[cfg(test)]
mod tests {
    use super::*;

    fn blocks(text: &str) -> Vec<(usize, String, String)> {
        let blocks = Page::of(text).blocks.into_iter();
        blocks.map(|one| (one.line, one.label, one.text)).collect()
    }

    fn block(line: usize, label: &str, text: &str) -> (usize, String, String) {
        (line, label.to_string(), text.to_string())
    }

    #[test]
    fn fenced_and_indented() {
        let page = "\
# A

```sh
ls

  ls -l
```
A
    no block

    one
    two

- in a list:
  ```text
  x
    y
  ```
````
```
````
";
        assert_eq!(
            blocks(page),
            [
                block(3, "sh", "ls\n\n  ls -l\n"),
                block(11, "", "one\ntwo\n"),
                block(15, "text", "x\n  y\n"),
                block(19, "", "```\n"),
            ]
        );
        let prose = Page::of(page).prose;
        assert_eq!(prose.lines().count(), page.lines().count());
        assert_eq!(
            prose.split_whitespace().collect::<Vec<_>>(),
            ["#", "A", "A", "no", "block", "-", "in", "a", "list:"]
        );
    }

    #[test]
    fn a_fence_that_nothing_closes() {
        assert_eq!(Page::of("a\n\n```sh\nls\n").open, Some(3));
        assert_eq!(Page::of("~~~sh\nls\n```\n").open, Some(1));
        assert_eq!(Page::of("```sh\nls\n```\n~~~\n~~~\n").open, None);
        assert_eq!(Page::of("```ls``` is a span\n").open, None);
    }

    #[test]
    fn spans_of_one_line_and_two() {
        let page = Page::of("a `b` and ``c ` d``\n`e\nf` a ` b\n\n`g`\n");
        let spans: Vec<(usize, String)> = page.spans();
        let told = [(1, "b"), (1, "c ` d"), (2, "e f"), (5, "g")];
        assert_eq!(spans, told.map(|(line, text)| (line, text.to_string())));
        assert_eq!(page.plain(), "a     and          \n  \n   a ` b\n\n   \n");
    }

    #[test]
    fn lines_of_commands() {
        assert_eq!(
            command_lines("# all\nls  -l # x\n\ncc \\\n    a.c\necho a#b\n"),
            ["ls -l", "cc a.c", "echo a#b"]
        );
    }
}
