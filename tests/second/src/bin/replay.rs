//! Program `replay`: a trace on standard input, its listing on standard output.
//!
//! Assumes nothing of the input, of which it reads at most one byte past the limit.

use std::io::{self, Read, Write};

fn main() -> io::Result<()> {
    let mut bytes = Vec::new();
    let most = second::trace::FILE_LIMIT as u64 + 1;
    io::stdin().lock().take(most).read_to_end(&mut bytes)?;
    io::stdout()
        .lock()
        .write_all(&second::replay::replay(&bytes))
}
