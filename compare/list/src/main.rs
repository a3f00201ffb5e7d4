//! Writes a fixed list of answers to standard output. It never sees this project's library.

mod canvas;
mod colour;
mod decoders;
mod jobs;

use canvas::List;
use std::process::ExitCode;

fn main() -> ExitCode {
    match std::env::args().nth(1).as_deref() {
        Some("colour") => colour::write(),
        Some("decoders") => decoders::write(),
        Some("decoders_refusals") => decoders::refusals::write(),
        Some("canvas") => canvas::write(List::Answers),
        Some("canvas_refusals") => canvas::write(List::Refusals),
        Some("drawing") => canvas::write_drawing(List::Answers),
        Some("drawing_refusals") => canvas::write_drawing(List::Refusals),
        Some("jobs") => jobs::write(),
        Some("jobs_refusals") => jobs::write_refusals(),
        _ => {
            eprintln!(
                "usage: list colour | decoders | decoders_refusals | canvas | canvas_refusals | \
                 drawing | drawing_refusals | jobs | jobs_refusals"
            );
            return ExitCode::from(2);
        }
    }
    ExitCode::SUCCESS
}

/// FNV-1a in 32 bits.
fn checksum(bytes: &[u8]) -> u32 {
    bytes.iter().fold(0x811c_9dc5, |sum, &byte| {
        (sum ^ u32::from(byte)).wrapping_mul(0x0100_0193)
    })
}

#[cfg(test)]
mod tests {
    use super::checksum;

    #[test]
    fn known_checksums() {
        assert_eq!(checksum(b""), 0x811c_9dc5);
        assert_eq!(checksum(b"a"), 0xe40c_292c);
        assert_eq!(checksum(b"foobar"), 0xbf9c_f968);
    }
}
