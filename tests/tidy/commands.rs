//! Each command of a page stands where tests/pages.sh runs it: in a block labelled sh. Each block
//! labelled text, which is what commands print, has such a block before it on its page. A command that is
//! named in running text stands in such a block too, or in a script of the gate, or in
//! tests/pages/unrun.rs with the reason.

use crate::files::{Place, Repository};
use crate::page::{command_lines, Block, Page};
use crate::unrun::UNRUN;
use std::collections::BTreeSet;

const GATE: &str = ".ci/run";
const LIST: &str = "tests/pages/unrun.rs";

/// The words with which a line of a block is a command.
const COMMANDS: [&str; 18] = [
    "bash", "cargo", "cat", "cc", "cd", "clang", "cmp", "cp", "diff", "export", "gcc", "git",
    "make", "mkdir", "rt", "rustc", "sh", "sudo",
];
/// What a program's path begins with.
const PROGRAMS: [&str; 2] = ["./", "target/"];
/// The words with which a code span of at least two words is a command.
const NAMED: [&str; 5] = ["bash", "cc", "make", "rt", "sh"];

pub fn check(repository: &Repository) -> Vec<Place> {
    let mut places = Vec::new();
    let pages: Vec<_> = repository
        .pages()
        .map(|file| (file, Page::of(&file.text)))
        .collect();
    let mut run: Vec<Vec<String>> = gate_commands(repository);
    let mut spans = BTreeSet::new();
    for (_, page) in &pages {
        let blocks = page.blocks.iter().filter(|block| block.is_commands());
        run.extend(blocks.flat_map(|block| simple(&command_lines(&block.text))));
        spans.extend(page.spans().into_iter().map(|span| span.1));
    }
    for (file, page) in &pages {
        let blocks = of_blocks(page).into_iter();
        places.extend(blocks.map(|(line, what)| file.place(line, what)));
        for (line, span) in page.spans() {
            let listed = UNRUN.iter().any(|(unrun, _)| *unrun == span);
            if is_named(&span) && !listed && !run.iter().any(|command| covers(command, &span)) {
                let what = format!(
                    "`{span}` stands in no block labelled sh, and the gate does not run it"
                );
                places.push(file.place(line, what));
            }
        }
    }
    for (unrun, _) in UNRUN {
        let stands = run.contains(&words(unrun)) || spans.contains(unrun);
        if let Some(file) = repository.file(LIST).filter(|_| !stands) {
            places.push(file.place(1, format!("no page has `{unrun}`")));
        }
    }
    places
}

/// What is wrong with the blocks of a page, each with its line.
fn of_blocks(page: &Page) -> Vec<(usize, String)> {
    let mut wrong = Vec::new();
    let mut commands = false;
    for block in &page.blocks {
        commands |= block.is_commands();
        if block.is_printed() {
            if !commands {
                let what = "a block labelled text with no block labelled sh before it";
                wrong.push((block.line, what.to_string()));
            }
            if block.text.trim().is_empty() {
                wrong.push((
                    block.line,
                    "a block labelled text that is empty".to_string(),
                ));
            }
        } else if !block.is_commands() {
            wrong.extend(outside(block));
        }
    }
    if let Some(line) = page.open {
        wrong.push((line, "a fence that nothing closes".to_string()));
    }
    wrong
}

/// The commands of a block that is not labelled as one of commands.
fn outside(block: &Block) -> Vec<(usize, String)> {
    let first = block.line + usize::from(block.fenced);
    let mut found = Vec::new();
    for (line, text) in (first..).zip(block.text.lines()) {
        let text = text.trim_start().trim_start_matches("$ ");
        let word = text.split_whitespace().next().unwrap_or("");
        let program = PROGRAMS.iter().any(|program| word.starts_with(program));
        if program || COMMANDS.contains(&word) {
            found.push((
                line,
                format!("a command outside a block labelled sh: {text}"),
            ));
        }
    }
    found
}

fn is_named(span: &str) -> bool {
    let words = words(span);
    words.len() > 1 && NAMED.contains(&words[0].as_str())
}

/// Whether a command is the one that is named: word for word, where words in capitals stand for any;
/// the last words may be left out.
fn covers(command: &[String], named: &str) -> bool {
    let named = words(named);
    let any = |word: &str| word.len() > 1 && word.bytes().all(|byte| byte.is_ascii_uppercase());
    let alike = |(word, named): (&String, &String)| word == named || any(named);
    named.len() <= command.len() && command.iter().zip(&named).all(alike)
}

fn words(text: &str) -> Vec<String> {
    text.split_whitespace().map(str::to_string).collect()
}

/// The commands of lines: each line, and its parts between `&&`, `||`, `;` and `|`, up to a redirection.
fn simple(lines: &[String]) -> Vec<Vec<String>> {
    let mut commands: Vec<Vec<String>> = lines.iter().map(|line| words(line)).collect();
    for line in lines {
        for part in line.split(['&', '|', ';']) {
            let redirected = |word: &String| word.contains(['<', '>']);
            let command: Vec<String> = words(part);
            let end = command.iter().position(redirected);
            commands.push(command[..end.unwrap_or(command.len())].to_vec());
        }
    }
    commands
}

/// The commands of the scripts that the gate runs.
fn gate_commands(repository: &Repository) -> Vec<Vec<String>> {
    let mut commands = Vec::new();
    let mut scripts = vec![GATE.to_string()];
    let mut at = 0;
    while let Some(script) = scripts.get(at) {
        let text = repository.file(script).map_or("", |file| &file.text);
        for command in simple(&command_lines(text)) {
            if let [shell, script, ..] = &command[..] {
                if shell == "bash" && script.ends_with(".sh") && !scripts.contains(script) {
                    scripts.push(script.clone());
                }
            }
            commands.push(command);
        }
        at += 1;
    }
    commands
}

#[cfg(test)]
mod tests {
    use super::*;
    use crate::files::said;

    const RUN: (&str, &str) = (GATE, "# rt x\nbash tests/all.sh\nrt ci | tee \"$said\"\n");
    const ALL: (&str, &str) = ("tests/all.sh", "rt check demand_three > /dev/null\n");

    fn of(page: &str) -> Vec<String> {
        said(&check(&Repository::of(&[RUN, ALL, ("A.md", page)])))
    }

    #[test]
    fn blocks_in_their_form() {
        let page = "\
# A

```sh
rt try reading && cat stdout   # all
```

```text
rt: ok
```

    text  words
    program rt

```c
int cc = 1;
```
";
        assert_eq!(of(page), [""; 0]);
    }

    #[test]
    fn commands_outside_their_blocks() {
        let page = "
    rt try reading

```
$ bash tests/all.sh
x
  target/worked
```

```bash
cd x
```

```text
y
```
";
        assert_eq!(
            of(page),
            [
                "A.md:2: a command outside a block labelled sh: rt try reading",
                "A.md:5: a command outside a block labelled sh: bash tests/all.sh",
                "A.md:7: a command outside a block labelled sh: target/worked",
                "A.md:11: a command outside a block labelled sh: cd x",
                "A.md:14: a block labelled text with no block labelled sh before it",
            ]
        );
    }

    #[test]
    fn a_text_that_is_empty_and_a_fence_that_is_open() {
        assert_eq!(
            of("```sh\nls\n```\n```text\n```\n```sh\nls\n"),
            [
                "A.md:4: a block labelled text that is empty",
                "A.md:6: a fence that nothing closes",
            ]
        );
    }

    #[test]
    fn commands_in_running_text() {
        let page = "\
`rt`, `rt ci`, `rt check`, `rt check demand_three`, `rt check\nCRATE`, `rt try NAME`, `bash tests/all.sh`,
`bash .ci/run`, `reading x`

```sh
rt try reading; echo $?
```
";
        assert_eq!(of(page), [""; 0]);
        for span in [
            "rt x",
            "rt ci all",
            "rt try explain",
            "rt try NAME x",
            "bash tests/al.sh",
            "cc -c x.c",
        ] {
            let what = "stands in no block labelled sh, and the gate does not run it";
            let page = format!("{page}\n`{span}`\n");
            assert_eq!(of(&page), [format!("A.md:9: `{span}` {what}")]);
        }
    }

    #[test]
    fn what_is_listed_and_stands_nowhere() {
        let files = [(LIST, ""), ("A.md", "`rt prove` `rt tidy`\n")];
        let places = said(&check(&Repository::of(&files)));
        assert_eq!(places, [format!("{LIST}:1: no page has `bash .ci/run`")]);
    }
}
