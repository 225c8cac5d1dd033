//! The reader: no export reads a job file, so the program `plan` is run as a whole, on the longest
//! file and on an empty one. The difference is the CPU time of reading.

use crate::clock::{wait, Seconds};
use crate::rounds::Times;
use host::program;
use std::env;
use std::fs::{self, File};
use std::io;
use std::path::{Path, PathBuf};
use std::process::{Command, Stdio};

/// Processes of each kind in a round.
const SPAWNS: usize = 100;

/// The verified program, and the unverified one, which stands beside this program.
pub fn paths() -> [PathBuf; 2] {
    let benchmark = env::current_exe().expect("the path of this program");
    [program::path(), benchmark.with_file_name("plan_fast")]
}

/// Two files on disk for as long as the benchmark runs.
pub struct Files {
    folder: PathBuf,
    pub long: PathBuf,
    pub empty: PathBuf,
}

impl Files {
    pub fn new(contents: &[u8]) -> io::Result<Files> {
        let folder = env::temp_dir().join(format!("benchmark-{}", std::process::id()));
        fs::create_dir(&folder)?;
        let files = Files {
            long: folder.join("long"),
            empty: folder.join("empty"),
            folder,
        };
        fs::write(&files.long, contents)?;
        fs::write(&files.empty, b"")?;
        Ok(files)
    }
}

impl Drop for Files {
    fn drop(&mut self) {
        // A folder that stays behind in the system's temporary one does no harm.
        let _ = fs::remove_dir_all(&self.folder);
    }
}

/// What each program needs in each round to read the longest file.
pub fn reading(name: &str, rounds: usize, files: &Files) -> Times {
    let programs = paths();
    let mut times = vec![Vec::new(); programs.len()];
    for _ in 0..rounds {
        let spent = round(&programs, files);
        for (times, [long, empty]) in times.iter_mut().zip(spent) {
            times.push(fastest_quarter(long) - fastest_quarter(empty));
        }
    }
    Times::new(name.into(), times)
}

/// The times of each program on both files, turn by turn.
fn round(programs: &[PathBuf; 2], files: &Files) -> [[Vec<Seconds>; 2]; 2] {
    let mut spent: [[Vec<Seconds>; 2]; 2] = Default::default();
    for _ in 0..SPAWNS {
        for (program, spent) in programs.iter().zip(&mut spent) {
            for (file, spent) in [&files.long, &files.empty].into_iter().zip(spent) {
                spent.push(run(program, file));
            }
        }
    }
    spent
}

fn run(program: &Path, file: &Path) -> Seconds {
    let child = command(program, file).stdout(Stdio::null()).spawn();
    wait(child.unwrap_or_else(|error| panic!("{}: {error}", program.display())))
}

/// What a program prints for a file.
pub fn printed(program: &Path, file: &Path) -> Vec<u8> {
    match command(program, file).output() {
        Ok(output) => output.stdout,
        Err(error) => panic!("{}: {error}", program.display()),
    }
}

fn command(program: &Path, file: &Path) -> Command {
    let mut command = Command::new(program);
    command.stdin(File::open(file).expect("a file of our own"));
    command
}

/// Most of a short process's time is the system's, and the rest of the machine only adds to it: the
/// mean of the fastest quarter is steadier than the median.
fn fastest_quarter(mut times: Vec<Seconds>) -> Seconds {
    times.sort_by(f64::total_cmp);
    let quarter = times.len().div_ceil(4);
    times[..quarter].iter().sum::<Seconds>() / quarter as f64
}
