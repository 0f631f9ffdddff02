//! `compare [--seed N] [--cases N]`, `bench [--turns N] [--times FILE]`, `sample`.

use claspotter_harness::inputs::Source;
use claspotter_harness::port::Archive;
use claspotter_harness::{bench, compare, sample};
use std::process::ExitCode;

const USAGE: &str = "usage: claspotter-harness compare [--seed N] [--cases N] | bench [--turns N] [--times FILE] | sample";

fn main() -> ExitCode {
    let words: Vec<String> = std::env::args().skip(1).collect();
    match words.first().map(String::as_str) {
        Some("compare") => {
            let (Some(seed), Some(cases)) = (number(&words, "--seed", compare::SEED), number(&words, "--cases", compare::CASES))
            else {
                eprintln!("{USAGE}");
                return ExitCode::from(2);
            };
            println!("archive: {}", bench::archive());
            println!("seed {seed}, {cases} cases");
            let tally = compare::run(&Archive, &mut Source::new(seed), cases);
            print!("{}", tally.report());
            if tally.differences() == 0 {
                ExitCode::SUCCESS
            } else {
                ExitCode::FAILURE
            }
        }
        Some("bench") => {
            let Some(turns) = number(&words, "--turns", bench::TURNS) else {
                eprintln!("{USAGE}");
                return ExitCode::from(2);
            };
            let times = words.iter().position(|w| w == "--times").and_then(|at| words.get(at + 1));
            bench::run(turns.max(1) as usize, times.map(Into::into));
            ExitCode::SUCCESS
        }
        Some("sample") => {
            print!("{}", sample::text());
            ExitCode::SUCCESS
        }
        _ => {
            eprintln!("{USAGE}");
            ExitCode::from(2)
        }
    }
}

/// The number behind a word, the usual one where the word is not there, nothing where it is no number.
fn number(words: &[String], word: &str, usual: u64) -> Option<u64> {
    match words.iter().position(|w| w == word) {
        None => Some(usual),
        Some(at) => words.get(at + 1)?.parse().ok(),
    }
}
