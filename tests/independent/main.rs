//! Reads a job from standard input and prints what document 01 says of it.

mod job;
mod machine;

use std::io::{Read, Write};

fn main() {
    // One byte past the limit tells a longer job from one that just fits.
    let mut bytes = Vec::new();
    std::io::stdin()
        .lock()
        .take(job::LONGEST_JOB as u64 + 1)
        .read_to_end(&mut bytes)
        .expect("standard input can be read");
    let print = job::print_of(&bytes);
    std::io::stdout()
        .lock()
        .write_all(print.as_bytes())
        .expect("standard output can be written");
}
