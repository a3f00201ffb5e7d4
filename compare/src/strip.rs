//! This project's program `strip`, run as a program.

use std::io::{ErrorKind, Write};
use std::process::{Command, Stdio};

/// Starts it from the folder compare/. It has 8 MB for all that it maps, the C library among it, so
/// that it cannot hold a picture.
const START: &str = "ulimit -v 8192 && exec ../crates/strip/out/strip";

/// What it writes when this is its standard input, or why that is no listing.
pub fn list(job: &[u8]) -> Result<Vec<u8>, String> {
    let mut strip = Command::new("sh")
        .args(["-c", START])
        .stdin(Stdio::piped())
        .stdout(Stdio::piped())
        .stderr(Stdio::piped())
        .spawn()
        .map_err(|e| format!("strip cannot be started: {e}"))?;
    // It writes nothing before it has read. Of too long an input it leaves the rest.
    let mut input = strip.stdin.take().expect("it is a pipe");
    match input.write_all(job) {
        Err(e) if e.kind() != ErrorKind::BrokenPipe => {
            return Err(format!("strip cannot be given its input: {e}"))
        }
        _ => drop(input),
    }
    let ended = strip.wait_with_output();
    let ended = ended.map_err(|e| format!("strip does not end: {e}"))?;
    if ended.status.success() && ended.stderr.is_empty() {
        return Ok(ended.stdout);
    }
    let told = String::from_utf8_lossy(&ended.stderr);
    Err(format!("strip ends with {}: {}", ended.status, told.trim()))
}
