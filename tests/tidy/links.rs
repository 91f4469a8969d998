//! Each relative link of a page leads to a file or folder of the repository, and to a heading that is
//! there; and links lead from README.md to every page.

use crate::files::{File, Place, Repository};
use crate::page::{line_of, Page};
use std::collections::BTreeMap;

const FRONT: &str = "README.md";

pub fn check(repository: &Repository) -> Vec<Place> {
    let pages: BTreeMap<&str, (&File, Page)> = repository
        .pages()
        .map(|file| (file.path.as_str(), (file, Page::of(&file.text))))
        .collect();
    let mut places = Vec::new();
    let mut led: BTreeMap<&str, Vec<String>> = BTreeMap::new();
    for (file, page) in pages.values() {
        for (line, link) in links(&page.plain()) {
            let (path, anchor) = link.split_once('#').unwrap_or((&link, ""));
            let target = match path {
                "" => Some(file.path.clone()),
                _ => resolved(&file.path, path),
            };
            let target = target.filter(|path| path.is_empty() || repository.paths.contains(path));
            let Some(target) = target else {
                places.push(file.place(line, format!("the link leads nowhere: {link}")));
                continue;
            };
            let there = pages.get(target.as_str());
            let anchors = there.map_or(Vec::new(), |(_, page)| anchors(page));
            if link.contains('#') && !anchors.iter().any(|one| one == anchor) {
                places.push(file.place(line, format!("no heading for the link: {link}")));
            }
            led.entry(&file.path).or_default().push(target);
        }
    }
    let mut reached = vec![FRONT];
    let mut at = 0;
    while let Some(page) = reached.get(at) {
        for target in led.get(page).map_or(&[][..], |targets| &targets[..]) {
            if pages.contains_key(target.as_str()) && !reached.contains(&target.as_str()) {
                reached.push(target);
            }
        }
        at += 1;
    }
    for (path, (file, _)) in &pages {
        if !reached.contains(path) {
            places.push(file.place(1, format!("no link leads here from {FRONT}")));
        }
    }
    places
}

/// The targets of the links that lead to the repository, each with its line.
fn links(plain: &str) -> Vec<(usize, String)> {
    let mut links = Vec::new();
    for (at, _) in plain.match_indices("](") {
        let behind = &plain[at + 2..];
        let target = behind.split([')', '\n', ' ']).next().unwrap_or("");
        links.push((line_of(plain, at), target));
    }
    for sign in ["href=\"", "src=\""] {
        for (at, _) in plain.match_indices(sign) {
            let target = plain[at + sign.len()..].split('"').next().unwrap_or("");
            links.push((line_of(plain, at), target));
        }
    }
    for (line, text) in (1..).zip(plain.lines()) {
        let defined = text
            .strip_prefix('[')
            .and_then(|text| text.split_once("]: "));
        let target = defined.and_then(|(_, behind)| behind.split_whitespace().next());
        links.extend(target.map(|target| (line, target)));
    }
    let elsewhere = |target: &str| target.contains("://") || target.starts_with("mailto:");
    let links = links.into_iter().filter(|(_, target)| !elsewhere(target));
    links
        .map(|(line, target)| (line, target.to_string()))
        .collect()
}

/// The path of a link's target from the repository's root, if it stays inside.
fn resolved(page: &str, target: &str) -> Option<String> {
    let mut parts: Vec<&str> = page.split('/').collect();
    parts.pop();
    for part in target.strip_suffix('/').unwrap_or(target).split('/') {
        match part {
            "" => return None,
            "." => {}
            ".." => {
                parts.pop()?;
            }
            _ => parts.push(part),
        }
    }
    Some(parts.join("/"))
}

/// The anchors of a page's headings, as GitHub makes them.
fn anchors(page: &Page) -> Vec<String> {
    let mut anchors: Vec<String> = Vec::new();
    for line in page.prose.lines() {
        let heading = line.trim_start_matches('#');
        if heading.len() == line.len() || !heading.starts_with(' ') {
            continue;
        }
        let plain = anchor(heading.trim_end_matches('#').trim());
        let numbered = (1..).map(|number| format!("{plain}-{number}"));
        let mut names = std::iter::once(plain.clone()).chain(numbered);
        anchors.extend(names.find(|name| !anchors.contains(name)));
    }
    anchors
}

fn anchor(heading: &str) -> String {
    let kept = heading.chars().filter_map(|letter| match letter {
        ' ' | '-' => Some('-'),
        '_' => Some('_'),
        _ => letter.is_alphanumeric().then_some(letter),
    });
    kept.flat_map(char::to_lowercase).collect()
}

#[cfg(test)]
mod tests {
    use super::*;
    use crate::files::said;

    const DOC: (&str, &str) = (
        "docs/A.md",
        "# A\n\n## How long it takes, and `how_much` it is\n\n## A\n\n```sh\n# No heading\n```\n",
    );

    fn of(front: &str) -> Vec<String> {
        let code = ("include/x.h", "");
        said(&check(&Repository::of(&[(FRONT, front), DOC, code])))
    }

    #[test]
    fn links_that_lead_somewhere() {
        let page = "\
# The front: a-b

[a](docs/A.md) [`b`](docs/A.md#a-1 \"title\") [c](./docs/../include/x.h)
[d](#the-front-a-b) [e](docs/A.md#how-long-it-takes-and-how_much-it-is) [f](docs/) [g](https://x.org/y#z)
`[h](nowhere)`

[i]: include

    [j](nowhere)
";
        assert_eq!(of(page), [""; 0]);
    }

    #[test]
    fn links_that_do_not() {
        for link in [
            "docs/B.md",
            "A.md",
            "/docs/A.md",
            "../x",
            "docs//A.md",
            "target/x",
            "docs/A.md/x",
        ] {
            let page = format!("[a](docs/A.md)\n[b]({link})\n");
            assert_eq!(
                of(&page),
                [format!("README.md:2: the link leads nowhere: {link}")]
            );
        }
        for link in [
            "docs/A.md#b",
            "#a",
            "docs/A.md#a-2",
            "docs/A.md#",
            "include/x.h#L1",
            "docs/A.md#no-heading",
        ] {
            let page = format!("[a](docs/A.md)\n\n[b]({link})\n");
            assert_eq!(
                of(&page),
                [format!("README.md:3: no heading for the link: {link}")]
            );
        }
        assert_eq!(
            of("[a]: docs/A.md\n[b]: docs/B.md\n<a href=\"docs/C.md\">c</a>\n"),
            [
                "README.md:3: the link leads nowhere: docs/C.md",
                "README.md:2: the link leads nowhere: docs/B.md",
            ]
        );
    }

    #[test]
    fn pages_that_no_link_leads_to() {
        assert_eq!(
            of("docs/A.md\n"),
            ["docs/A.md:1: no link leads here from README.md"]
        );
        let files = [
            (FRONT, "[a](docs/A.md)"),
            ("docs/A.md", "[b](../samples/README.md)"),
            ("samples/README.md", "[a](../docs/A.md)"),
            ("docs/B.md", "[c](C.md)"),
            ("docs/C.md", "[b](B.md)"),
        ];
        assert_eq!(
            said(&check(&Repository::of(&files))),
            [
                "docs/B.md:1: no link leads here from README.md",
                "docs/C.md:1: no link leads here from README.md",
            ]
        );
    }
}
