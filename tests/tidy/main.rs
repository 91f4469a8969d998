//! Holds the text of the repository to rules that no proof asks for.
//!
//! `tidy [CHECK ..]`, in the repository's root: the checks that are named, or all. Prints each
//! place as `file:line: what`, then for each check the number of its places.

mod commands;
mod comments;
mod cylinders;
mod declarations;
mod figures;
mod files;
mod imports;
mod layers;
mod links;
mod order;
#[allow(dead_code)]
#[path = "../pages/page.rs"]
mod page;
mod paths;
mod picture;
mod points;
mod rt;
mod shape;
mod storage;
mod tokens;
#[allow(dead_code)]
#[path = "../pages/unrun.rs"]
mod unrun;
mod unused;
mod uses;
mod width;

use files::{Place, Repository};
use std::path::Path;
use std::process::ExitCode;

type Check = fn(&Repository) -> Vec<Place>;

const CHECKS: [(&str, Check); 15] = [
    ("layers", layers::check),
    ("picture", picture::check),
    ("imports", imports::check),
    ("unused", unused::check),
    ("order", order::check),
    ("width", width::check),
    ("shape", shape::check),
    ("points", points::check),
    ("comments", comments::check),
    ("links", links::check),
    ("paths", paths::check),
    ("commands", commands::check),
    ("figures", figures::check),
    ("storage", storage::check),
    ("cylinders", cylinders::check),
];

fn main() -> ExitCode {
    let asked: Vec<String> = std::env::args().skip(1).collect();
    for name in &asked {
        if !CHECKS.iter().any(|check| check.0 == name) {
            let names: Vec<&str> = CHECKS.iter().map(|check| check.0).collect();
            eprintln!("{name} is no check; the checks: {}", names.join(" "));
            return ExitCode::from(2);
        }
    }
    let repository = match Repository::read(Path::new(".")) {
        Ok(repository) => repository,
        Err(error) => {
            eprintln!("{error}");
            return ExitCode::from(2);
        }
    };
    let mut counts = Vec::new();
    for (name, check) in CHECKS {
        if asked.is_empty() || asked.iter().any(|one| one == name) {
            let places = check(&repository);
            for place in &places {
                println!("{place}");
            }
            counts.push((name, places.len()));
        }
    }
    for (name, count) in &counts {
        println!("tidy: {name}: {count}");
    }
    if counts.iter().all(|(_, count)| *count == 0) {
        ExitCode::SUCCESS
    } else {
        ExitCode::FAILURE
    }
}
