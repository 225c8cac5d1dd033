//! The program `plan` as a process: bytes in, bytes out.

use std::env;
use std::io::{ErrorKind, Write};
use std::path::{Path, PathBuf};
use std::process::{ChildStdin, Command, Stdio};
use std::thread::sleep;
use std::time::Duration;

/// Long enough for a program to read what is there and to ask for more.
const PAUSE: Duration = Duration::from_millis(20);

/// VEZHDANUR_PLAN (a relative path counts from this package), and otherwise where the project
/// builds it.
pub fn path() -> PathBuf {
    let program = env::var_os("VEZHDANUR_PLAN").unwrap_or_else(|| "../target/bin/plan".into());
    Path::new(env!("CARGO_MANIFEST_DIR")).join(program)
}

/// What the program prints when this is its standard input.
pub fn run(file: &[u8]) -> Vec<u8> {
    run_in_pieces(&[file])
}

/// The same with a pause between the pieces, so that no single read can see them all.
pub fn run_in_pieces(pieces: &[&[u8]]) -> Vec<u8> {
    let path = path();
    let mut child = Command::new(&path)
        .stdin(Stdio::piped())
        .stdout(Stdio::piped())
        .spawn()
        .unwrap_or_else(|error| panic!("{} (or VEZHDANUR_PLAN): {error}", path.display()));
    let mut stdin = child.stdin.take().expect("it is piped");
    for (index, piece) in pieces.iter().enumerate() {
        if index > 0 {
            sleep(PAUSE);
        }
        feed(&mut stdin, piece);
    }
    drop(stdin);
    let output = child.wait_with_output().expect("its output can be read");
    // A refusal, too, ends with 0; any other end is no answer.
    assert!(output.status.success(), "stopped: {}", output.status);
    output.stdout
}

/// A program that has seen more than it takes may stop reading.
fn feed(stdin: &mut ChildStdin, piece: &[u8]) {
    match stdin.write_all(piece) {
        Err(error) if error.kind() != ErrorKind::BrokenPipe => panic!("standard input: {error}"),
        _ => {}
    }
}
