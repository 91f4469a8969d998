//! Figures stand in one place. Measured times are told by docs/FIGURES.md, the front page and the notes of
//! docs/requests alone, and the large numbers of the tables of docs/FIGURES.md by no other page. Its table
//! of crates has each crate of crates.txt in order, with what docs/lines.sh counts, and the sums.

use crate::files::{File, Place, Repository};
use std::collections::BTreeSet;

const FIGURES: &str = "docs/FIGURES.md";
const TIMED: [&str; 2] = ["README.md", FIGURES];
/// A note tells the time of the check before and after its request.
const NOTES: &str = "docs/requests/";
const HEADER: [&str; 6] = ["crate", "seconds", "code", "definitions", "proof", "edits"];
const SUMS: &str = "all";
/// In place of the seconds of a crate that was not there when they were measured.
const UNMEASURED: &str = "–";

const UNITS: [&str; 14] = [
    "hour",
    "hours",
    "min",
    "mins",
    "minute",
    "minutes",
    "ms",
    "millisecond",
    "milliseconds",
    "ns",
    "s",
    "sec",
    "second",
    "seconds",
];
/// Of a number in words; "a second mask" is no time.
const UNITS_IN_WORDS: [&str; 4] = ["hours", "milliseconds", "minutes", "seconds"];
const NUMBERS: [&str; 17] = [
    "two", "three", "four", "five", "six", "seven", "eight", "nine", "ten", "eleven", "twelve",
    "fifteen", "twenty", "thirty", "forty", "fifty", "sixty",
];
/// A number of so many digits can only be one of the figures.
const LARGE: usize = 5;

pub fn check(repository: &Repository) -> Vec<Place> {
    let mut places = Vec::new();
    let figures = repository.file(FIGURES);
    let large = figures.map_or(BTreeSet::new(), |file| large(&file.text));
    for file in repository.pages() {
        let words = words(&file.text);
        if !TIMED.contains(&file.path.as_str()) && !file.path.starts_with(NOTES) {
            let what = |time| format!("a time, which belongs in {FIGURES}: {time}");
            let times = times(&words).into_iter();
            places.extend(times.map(|(line, time)| file.place(line, what(time))));
        }
        if file.path != FIGURES {
            let what = |word| format!("a number that stands in {FIGURES}: {word}");
            let told = words
                .iter()
                .filter(|(_, word)| large.contains(&digits(word)));
            places.extend(told.map(|(line, word)| file.place(*line, what(word))));
        }
    }
    match figures {
        Some(file) => places.extend(of_table(file, &repository.lines)),
        None => places.push(Place {
            file: FIGURES.to_string(),
            line: 1,
            what: "there is no such page".to_string(),
        }),
    }
    places
}

/// The words between blanks, hyphens and brackets, each with its line.
fn words(text: &str) -> Vec<(usize, &str)> {
    let apart = |letter: char| letter.is_whitespace() || "-–|()[]`~".contains(letter);
    let lines = (1..).zip(text.lines());
    let words = lines.flat_map(|(line, text)| text.split(apart).map(move |word| (line, word)));
    words.filter(|(_, word)| !word.is_empty()).collect()
}

/// The numbers with a unit of time, each with its line.
fn times(words: &[(usize, &str)]) -> Vec<(usize, String)> {
    let mut times = Vec::new();
    for (at, (line, word)) in words.iter().enumerate() {
        let next = words.get(at + 1).map_or("", |(_, word)| bare(word));
        let digits = |letter: char| letter.is_ascii_digit() || ".,".contains(letter);
        let behind = word.trim_start_matches(digits);
        let number = word.starts_with(|letter: char| letter.is_ascii_digit());
        let apart = number && behind.is_empty() && !word.ends_with(',') && UNITS.contains(&next);
        let in_words = NUMBERS.contains(&word.to_lowercase().as_str());
        if apart || in_words && UNITS_IN_WORDS.contains(&next) {
            times.push((*line, format!("{word} {next}")));
        } else if number && UNITS.contains(&bare(behind)) {
            times.push((*line, bare(word).to_string()));
        }
    }
    times
}

fn bare(word: &str) -> &str {
    word.trim_end_matches(|letter: char| letter.is_ascii_punctuation())
}

fn digits(word: &str) -> String {
    let number = bare(word);
    let is_number = number
        .bytes()
        .all(|byte| byte.is_ascii_digit() || byte == b',');
    let number = if is_number { number } else { "" };
    number.replace(',', "")
}

/// The large numbers of the tables of a page.
fn large(text: &str) -> BTreeSet<String> {
    let rows = text.lines().filter(|line| line.starts_with('|'));
    let numbers = rows.flat_map(|row| words(row).into_iter().map(|(_, word)| digits(word)));
    numbers.filter(|number| number.len() >= LARGE).collect()
}

/// Holds the table of crates to what docs/lines.sh prints, up to the first row of another crate.
fn of_table(file: &File, counted: &str) -> Vec<Place> {
    let lines = (1..).zip(file.text.lines());
    let mut rows = lines.map(|(line, text)| (line, cells(text)));
    let Some((header, _)) = rows.find(|(_, cells)| cells[..] == HEADER) else {
        return vec![file.place(
            1,
            format!("no table with the columns {}", HEADER.join(", ")),
        )];
    };
    let mut rows = rows.skip(1).take_while(|(_, cells)| !cells.is_empty());
    let mut places = Vec::new();
    let mut last = header + 1;
    let mut sum = 0;
    for counted in counted.lines().skip(1) {
        let counted: Vec<&str> = counted.split_whitespace().collect();
        let row = rows.next().filter(|(_, cells)| cells[0] == counted[0]);
        let Some((line, mut cells)) = row else {
            let what = format!("the next row is not that of `{}`", counted[0]);
            places.push(file.place(last, what));
            return places;
        };
        let seconds: Option<u32> = (cells.len() > 1)
            .then(|| cells.remove(1))
            .and_then(|cell| if cell == UNMEASURED { Some(0) } else { cell.parse().ok() });
        if cells != counted {
            places.push(file.place(line, format!("docs/lines.sh counts: {}", counted.join(" "))));
        }
        if seconds.is_none() || counted[0] == SUMS && seconds != Some(sum) {
            places.push(file.place(line, format!("the seconds above come to {sum}")));
        }
        sum += seconds.unwrap_or(0);
        last = line;
    }
    if rows.next().is_some() {
        places.push(file.place(last, "a row stands behind the last one".to_string()));
    }
    places
}

/// The cells of a table's row, without the backticks of a name; none of any other line.
fn cells(line: &str) -> Vec<&str> {
    let row = line.strip_prefix('|').and_then(|row| row.strip_suffix('|'));
    let cells = row.map(|row| row.split('|').map(|cell| cell.trim().trim_matches('`')));
    cells.map_or(Vec::new(), Iterator::collect)
}

#[cfg(test)]
mod tests {
    use super::*;
    use crate::files::said;

    const TABLE: &str = "\
| crate | seconds | code | definitions | proof | edits |
|---|---|---|---|---|---|
| `base` | 3 | 74 | 56 | 309 | 3 |
| `text` | 4 | 10 | 0 | 12000 | 1 |
| all | 7 | 84 | 56 | 12309 | 4 |
";
    const COUNTED: &str = "\
crate   code  definitions  proof  edits
base      74           56    309      3
text      10            0  12000      1
all       84           56  12309      4
";

    fn of(figures: &str, page: &str) -> Vec<String> {
        let files = [
            (FIGURES, figures),
            ("docs/A.md", page),
            ("README.md", "12 s"),
            ("docs/requests/01.md", "12 s"),
        ];
        let mut repository = Repository::of(&files);
        repository.lines = COUNTED.to_string();
        said(&check(&repository))
    }

    #[test]
    fn the_table_as_it_is_counted() {
        let page = format!("It takes 3 minutes.\n\n{TABLE}\nMore | x |\n");
        assert_eq!(of(&page, ""), [""; 0]);
    }

    #[test]
    fn a_crate_without_seconds() {
        let page = TABLE.replace("| 4 | 10", "| – | 10").replace("| 7 | 84", "| 3 | 84");
        assert_eq!(of(&page, ""), [""; 0]);
    }

    #[test]
    fn another_number_crate_order_or_sum() {
        for (old, new, told) in [
            (
                "309 | 3 |",
                "308 | 3 |",
                "4: docs/lines.sh counts: base 74 56 309 3",
            ),
            (
                "| 84 |",
                "| 85 |",
                "6: docs/lines.sh counts: all 84 56 12309 4",
            ),
            ("`text`", "`test`", "4: the next row is not that of `text`"),
            (
                "| `base` | 3 | 74 | 56 | 309 | 3 |\n",
                "",
                "3: the next row is not that of `base`",
            ),
            ("| 3 | 74", "| 4 | 74", "6: the seconds above come to 8"),
            ("| 4 | 10", "| | 10", "5: the seconds above come to 3"),
            (
                "| `text` | 4 | 10 | 0 | 12000 | 1 |",
                "| `text` |",
                "5: docs/lines.sh counts: text 10 0 12000 1",
            ),
            (
                "| all | 7 | 84 | 56 | 12309 | 4 |\n",
                "",
                "5: the next row is not that of `all`",
            ),
            (
                "12309 | 4 |\n",
                "12309 | 4 |\n| x |\n",
                "6: a row stands behind the last one",
            ),
            (
                "| crate |",
                "| box |",
                "1: no table with the columns crate, seconds, code, definitions, proof, edits",
            ),
        ] {
            let page = format!("\n{}\nMore\n", TABLE.replace(old, new));
            assert_eq!(of(&page, "")[0], format!("{FIGURES}:{told}"));
        }
    }

    #[test]
    fn no_page_of_figures() {
        let places = check(&Repository::of(&[("README.md", "")]));
        assert_eq!(
            said(&places),
            [format!("{FIGURES}:1: there is no such page")]
        );
    }

    #[test]
    fn times_of_other_pages() {
        for (page, time) in [
            ("about 5 minutes", "5 minutes"),
            ("8 to 10 min.", "10 min"),
            ("8–10 s,", "10 s"),
            ("`1.5 ms`", "1.5 ms"),
            ("(12s)", "12s"),
            ("| 0.2 seconds |", "0.2 seconds"),
            ("a 30-second wait", "30 second"),
            ("Five minutes", "Five minutes"),
            ("1,200 ms", "1,200 ms"),
            ("about 5\nminutes", "5 minutes"),
        ] {
            let told = format!("docs/A.md:2: a time, which belongs in {FIGURES}: {time}");
            assert_eq!(of(TABLE, &format!("\n{page}\n")), [told]);
        }
        for page in [
            "a second mask",
            "the 3330's manual",
            "in seconds",
            "T12, second",
            "the first hour",
            "5 searches",
            "4096 s_x",
            "two second records",
            "bits 5 to 7",
        ] {
            assert_eq!(of(TABLE, page), [""; 0], "{page}");
        }
    }

    #[test]
    fn numbers_of_the_tables() {
        let figures = format!("{TABLE}\n| what | number |\n|---|---|\n| inputs | 1,175,331 |\n| cases | 311 |\n\n13,030\n");
        assert_eq!(of(&figures, "13,030 bytes, 311, 175,331, 1,175"), [""; 0]);
        assert_eq!(
            of(&figures, "on 1,175,331 inputs\n`12309`,\n"),
            [
                format!("docs/A.md:1: a number that stands in {FIGURES}: 1,175,331"),
                format!("docs/A.md:2: a number that stands in {FIGURES}: 12309"),
            ]
        );
    }
}
