//! Reads standard input and prints what program `phases` prints.

use std::io::{self, Read, Write};

fn main() -> io::Result<()> {
    let mut input = Vec::new();
    io::stdin()
        .lock()
        .take(frame_tests::phases::MAX_INPUT as u64)
        .read_to_end(&mut input)?;
    let mut out = io::stdout().lock();
    out.write_all(&frame_tests::phases::phases(&input))?;
    out.flush()
}
