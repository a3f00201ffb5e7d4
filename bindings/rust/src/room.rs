//! Buffers that are made longer when the library asks for room.

use crate::Error;

/// Lends a buffer and, where it is too short, lends it again twice as long. NO_ROOM is the last
/// number of every order, so all else is right then; a refused call writes nothing; and no canvas or
/// image takes more than 4·16,384·16,384 bytes.
pub fn lend<T>(
    buf: &mut Vec<u8>,
    mut call: impl FnMut(&mut [u8]) -> Result<T, Error>,
) -> Result<T, Error> {
    loop {
        match call(buf) {
            Err(Error::NoRoom) => buf.resize((2 * buf.len()).max(4096), 0),
            answer => return answer,
        }
    }
}
