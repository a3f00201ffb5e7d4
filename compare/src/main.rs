//! Compares this project's static library with the original, or measures both.

mod bench;
mod canvas;
mod colour;
mod decoders;
mod failures;
mod incident;
mod jobs;
mod library;
mod progress;
mod question;
mod replay;
mod report;
mod space;
mod strip;
mod words;

use oracle::random::Random;
use progress::Progress;
use report::Report;
use std::process::ExitCode;

fn main() -> ExitCode {
    let arguments: Vec<String> = std::env::args().skip(1).collect();
    let arguments: Vec<&str> = arguments.iter().map(String::as_str).collect();
    match arguments[..] {
        ["run", build] => quick(build),
        ["run", build, cases, seed] => match (cases.parse(), seed.parse()) {
            (Ok(cases), Ok(seed)) => long(build, cases, seed),
            _ => usage(),
        },
        ["jobs", build, folder] => archive(build, folder),
        ["replay", file] => replay(file),
        ["incident"] => {
            incident::show();
            ExitCode::SUCCESS
        }
        ["bench"] => {
            bench::measure();
            ExitCode::SUCCESS
        }
        _ => usage(),
    }
}

fn usage() -> ExitCode {
    eprintln!("usage: compare run BUILD [CASES SEED] | jobs BUILD FOLDER | replay FILE | incident | bench");
    ExitCode::from(2)
}

/// The same cases in every run, of every operation.
fn quick(build: &str) -> ExitCode {
    let mut report = Report::new(build, Progress::new(build, None));
    colour::compare(&mut report);
    decoders::compare(&mut report);
    canvas::compare(&mut report);
    jobs::compare(&mut report);
    report.finish()
}

/// A job has a case for each of its rows; of a tall one only so many are compared.
const MOST_OF_A_JOB: u64 = 200;

/// Random cases of all operations but those on single colours, of which the quick setting has
/// nearly all inputs: histories of a canvas, and between them images, borders and jobs.
fn long(build: &str, cases: u64, seed: u64) -> ExitCode {
    let mut report = Report::new(build, Progress::new(build, Some(cases)));
    let mut random = Random::new(seed);
    let images = decoders::Decoders::new(&mut report, &mut random);
    let mut canvases = canvas::Canvases::new(&mut report);
    let mut borders = canvas::Borders::new(&mut report, &mut random);
    let mut strips = jobs::Jobs::new(&mut report);
    while report.cases() < cases {
        let before = report.cases();
        canvases.any(cases - before, &mut report, &mut random);
        // Five kinds of images stand beside nineteen operations, and one of borders.
        let calls = report.cases() - before;
        for _ in 0..calls.div_ceil(4).min(cases - report.cases()) {
            images.any(&mut report, &mut random);
        }
        for _ in 0..calls.div_ceil(20).min(cases - report.cases()) {
            borders.any(&mut report, &mut random);
        }
        let left = cases - report.cases();
        if left > 0 {
            strips.any(left.min(MOST_OF_A_JOB), &mut report, &mut random);
        }
    }
    report.finish()
}

/// The files of a folder, each a job.
fn archive(build: &str, folder: &str) -> ExitCode {
    let mut report = Report::new(build, Progress::new(build, None));
    match jobs::archive(folder, &mut report) {
        Ok(()) => report.finish(),
        Err(why) => {
            println!("{why}");
            ExitCode::from(2)
        }
    }
}

fn replay(file: &str) -> ExitCode {
    match replay::replay(file) {
        Ok(None) => {
            println!("no difference");
            ExitCode::SUCCESS
        }
        Ok(Some(difference)) => {
            println!("differs: {difference}");
            ExitCode::FAILURE
        }
        Err(why) => {
            println!("{why}");
            ExitCode::from(2)
        }
    }
}
