//! Runs the commands of pages, and holds what they print to the pages.
//!
//! `pages PAGE ..`, in the repository's root. A block labelled sh must end well; a block labelled
//! text is the end of what the last block labelled sh before it on its page printed, standard output
//! and standard error together. Blocks that are alike are run once.

#[allow(dead_code)]
mod page;
mod unrun;

use page::{command_lines, Page};
use std::collections::HashMap;
use std::fs;
use std::process::{Command, ExitCode, Stdio};

fn main() -> ExitCode {
    let mut runner = Runner::default();
    for path in std::env::args().skip(1) {
        match fs::read_to_string(&path) {
            Ok(text) => runner.page(&path, &Page::of(&text)),
            Err(error) => runner.say(false, format!("cannot be read: {path}: {error}")),
        }
    }
    let bad = runner.said.iter().filter(|(well, _)| !well).count();
    println!("pages: {} blocks, {bad} bad", runner.said.len());
    if bad == 0 && !runner.said.is_empty() {
        ExitCode::SUCCESS
    } else {
        ExitCode::FAILURE
    }
}

/// What a block came to.
#[derive(Clone)]
struct Ran {
    well: bool,
    printed: String,
}

#[derive(Default)]
struct Runner {
    /// By their commands.
    ran: HashMap<String, Ran>,
    /// Of each block whether all is well, and what is printed of it.
    said: Vec<(bool, String)>,
}

impl Runner {
    fn say(&mut self, well: bool, what: String) {
        println!("{what}");
        self.said.push((well, what));
    }

    fn page(&mut self, path: &str, page: &Page) {
        let mut last: Option<(String, Ran)> = None;
        for block in &page.blocks {
            let place = format!("{path}:{}", block.line);
            if block.is_commands() {
                last = self.commands(&place, &block.text);
            } else if block.is_printed() {
                let (well, what) = match &last {
                    Some((_, ran)) if ends_with(&ran.printed, &block.text) => {
                        (true, format!("ok: {place}: what is printed"))
                    }
                    Some((name, ran)) => {
                        let beside = beside(&ran.printed, &block.text);
                        (
                            false,
                            format!("differs: {place}: what is printed by {name}\n{beside}"),
                        )
                    }
                    None => (
                        false,
                        format!("differs: {place}: no commands before it were run"),
                    ),
                };
                self.say(well, what);
            }
        }
    }

    /// Runs a block of commands that stands at a place, and tells its name and what it came to.
    fn commands(&mut self, place: &str, text: &str) -> Option<(String, Ran)> {
        for line in text.lines() {
            if let Some(reason) = unrun_line(line) {
                println!("not run: {place}: {line} ({reason})");
            }
        }
        let commands = left(text);
        if commands.is_empty() {
            return None;
        }
        let name = format!("{place}: {}", command_lines(text).join("; "));
        let ran = match self.ran.get(&commands) {
            Some(ran) => ran.clone(),
            None => run(&commands),
        };
        self.ran.insert(commands, ran.clone());
        if ran.well {
            self.say(true, format!("ok: {name}"));
        } else {
            self.say(false, format!("fails: {name}\n{}", ran.printed));
        }
        Some((name, ran))
    }
}

/// The reason why a line of a block is not run.
fn unrun_line(line: &str) -> Option<&'static str> {
    match &command_lines(line)[..] {
        [command] => unrun::reason(command),
        _ => None,
    }
}

/// A block without the lines that are not run; empty where no command is left.
fn left(text: &str) -> String {
    let lines = text.lines().filter(|line| unrun_line(line).is_none());
    let left = lines.collect::<Vec<_>>().join("\n");
    if command_lines(&left).is_empty() {
        String::new()
    } else {
        left
    }
}

/// Both outputs go to one pipe, in the order in which they are written.
fn run(commands: &str) -> Ran {
    let output = Command::new("bash")
        .args(["-e", "-c", &format!("exec 2>&1\n{commands}")])
        .stdin(Stdio::null())
        .output()
        .expect("bash can be run");
    Ran {
        well: output.status.success(),
        printed: String::from_utf8_lossy(&output.stdout).into_owned(),
    }
}

fn ends_with(printed: &str, expected: &str) -> bool {
    let before = printed.strip_suffix(expected);
    !expected.is_empty() && before.is_some_and(|text| text.is_empty() || text.ends_with('\n'))
}

/// The end of what was printed, and what the page has.
fn beside(printed: &str, expected: &str) -> String {
    let count = expected.lines().count();
    let lines: Vec<&str> = printed.lines().collect();
    let mut text = String::new();
    for line in &lines[lines.len().saturating_sub(count)..] {
        text += &format!("< {line}\n");
    }
    for line in expected.lines() {
        text += &format!("> {line}\n");
    }
    text
}

#[cfg(test)]
mod tests {
    use super::*;

    /// What is said of a page.
    fn said(page: &str) -> Vec<(bool, String)> {
        let mut runner = Runner::default();
        runner.page("A.md", &Page::of(page));
        runner.said
    }

    fn verdicts(page: &str) -> Vec<bool> {
        said(page).into_iter().map(|one| one.0).collect()
    }

    #[test]
    fn both_outputs_in_order() {
        let page = "```sh\necho a\necho b >&2 # b\necho c\n```\n\n```text\nb\nc\n```\n";
        assert_eq!(
            said(page),
            [
                (true, "ok: A.md:1: echo a; echo b >&2; echo c".to_string()),
                (true, "ok: A.md:7: what is printed".to_string()),
            ]
        );
    }

    #[test]
    fn another_line_fewer_and_more() {
        for printed in ["x\n", "ab\n", "a\n", "a\nb\nc\n", "b\n\n", "x\na\nb\n", ""] {
            let page = format!("```sh\necho a; echo b\n```\n```text\n{printed}```\n");
            assert_eq!(verdicts(&page), [true, false], "{printed}");
        }
        assert_eq!(
            verdicts("```sh\necho ab\n```\n```text\nb\n```\n"),
            [true, false]
        );
    }

    #[test]
    fn a_command_that_fails() {
        assert_eq!(verdicts("```sh\nfalse\ntrue\n```\n"), [false]);
        assert_eq!(
            verdicts("```sh\nfalse || echo $?\n```\n```text\n1\n```\n"),
            [true, true]
        );
    }

    #[test]
    fn text_behind_no_commands() {
        assert_eq!(
            verdicts("```text\na\n```\n\n```sh\necho a\n```\n"),
            [false, true]
        );
        assert_eq!(
            verdicts("```sh\nbash .ci/run\n```\n\n```text\na\n```\n"),
            [false]
        );
    }

    #[test]
    fn the_last_commands_count() {
        let page = "```sh\necho a\n```\n```sh\necho b\n```\n\n```text\na\n```\n";
        assert_eq!(verdicts(page), [true, true, false]);
    }

    #[test]
    fn what_is_not_run() {
        assert_eq!(verdicts("```sh\nbash .ci/run   # all\n```\n"), [true; 0]);
        assert_eq!(
            left("echo a\nbash .ci/run # all\necho b\n"),
            "echo a\necho b"
        );
    }

    #[test]
    fn other_blocks_are_not_run() {
        assert_eq!(
            verdicts("    false\n\n```\nfalse\n```\n\n```c\nfalse\n```\n"),
            [true; 0]
        );
    }

    #[test]
    fn alike_blocks_run_once() {
        let path = std::env::temp_dir().join(format!("giruve_pages_once_{}", std::process::id()));
        let block = format!(
            "```sh\necho x >> {0}; cat {0}\n```\n```text\nx\n```\n",
            path.display()
        );
        assert_eq!(verdicts(&format!("{block}{block}")), [true; 4]);
        fs::remove_file(path).unwrap();
    }
}
