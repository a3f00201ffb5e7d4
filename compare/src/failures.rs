//! Failing inputs, made small and written to files that can be replayed.

use crate::question::{smallest, Question};
use std::fs;
use std::path::Path;

/// As seen from the folder compare/ and from the top of the repository.
const FOLDER: &str = "../target/compare/failures";
const FOLDER_FROM_TOP: &str = "target/compare/failures";

/// Longer questions are only written, and not printed.
const SHOWN: usize = 1_500;

pub fn write<Q: Question>(operation: &str, build: &str, question: Q) {
    let alone = question.difference().is_some();
    let question = if alone { smallest(question) } else { question };
    let words: Vec<_> = operation
        .split([' ', ','])
        .filter(|w| !w.is_empty())
        .collect();
    let name = format!("{}-{build}.txt", words.join("_"));
    let text = question.text();
    let written = fs::create_dir_all(FOLDER);
    if let Err(e) = written.and_then(|_| fs::write(Path::new(FOLDER).join(&name), &text)) {
        println!("  {FOLDER_FROM_TOP}/{name} cannot be written: {e}");
    }
    match question.difference() {
        Some(difference) => println!("  smallest input found: {difference}"),
        None => println!("  asked alone it does not differ, so that it was not made smaller"),
    }
    if text.len() <= SHOWN {
        text.lines().for_each(|line| println!("    {line}"));
    }
    println!("  to replay it: compare/run --replay {FOLDER_FROM_TOP}/{name}");
}
