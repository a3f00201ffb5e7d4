//! Asks a question again that was written to a file.

use crate::question::Question;
use crate::words::Words;
use crate::{canvas, colour, decoders, jobs};
use std::fs;

/// How the answers differ, if they do.
pub fn replay(path: &str) -> Result<Option<String>, String> {
    let text = fs::read_to_string(path).map_err(|e| format!("{path}: {e}"))?;
    let mut words = Words::new(&text);
    let words = &mut words;
    Ok(match words.word()? {
        "colour" => colour::read_call(words)?.difference(),
        "dots" => colour::read_run(words)?.difference(),
        "decoder" => decoders::read(words)?.difference(),
        "canvas" => canvas::read_history(words)?.difference(),
        "border" => canvas::read_border(words)?.difference(),
        "job" => jobs::read_job(words)?.difference(),
        "plan" => jobs::read_plan(words)?.difference(),
        word => return Err(format!("'{word}' is no question")),
    })
}
