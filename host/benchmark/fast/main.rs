//! The program `plan` written for speed and not verified.

use std::io::{stdin, stdout, Read, Write};

fn main() {
    // One byte more than a job file may have, so that a longer one is seen.
    let most = fast::text::MOST_BYTES + 1;
    let mut file = Vec::with_capacity(most);
    stdin()
        .take(most as u64)
        .read_to_end(&mut file)
        .expect("standard input can be read");
    stdout()
        .write_all(&fast::text::text(&file))
        .expect("standard output can be written");
}
