//! Programs for x86-64, run: those that `tools/make` makes, on an input.

use std::env;
use std::io::Write as _;
use std::path::{Path, PathBuf};
use std::process::{Command, Stdio};
use std::thread;
use std::time::Duration;

/// The root of the repository.
#[allow(dead_code)]
pub fn root() -> PathBuf {
    Path::new(env!("CARGO_MANIFEST_DIR")).join("..")
}

/// A program for x86-64, to be run. `KENUPATUN_RUN` names an emulator, where one is needed.
pub fn command(program: &Path) -> Command {
    match env::var("KENUPATUN_RUN") {
        Ok(run) if !run.is_empty() => {
            let mut command = Command::new(run);
            command.arg(program);
            command
        }
        _ => Command::new(program),
    }
}

/// What a program that `tools/make` makes writes on an input that comes in parts, with a pause after each but the last.
#[allow(dead_code)]
pub fn written_on(name: &str, words: &[String], parts: Vec<Vec<u8>>) -> Vec<u8> {
    let program = root().join("target/bin").join(name);
    assert!(program.is_file(), "there is no {}: run `tools/make {name}` first", program.display());
    let mut child = command(&program).args(words).stdin(Stdio::piped()).stdout(Stdio::piped()).spawn().unwrap();
    let mut stdin = child.stdin.take().unwrap();
    // the program may stop before the end of its input: then a write fails, and that is no fault
    let writer = thread::spawn(move || {
        for (i, part) in parts.iter().enumerate() {
            if i > 0 {
                thread::sleep(Duration::from_millis(2));
            }
            if stdin.write_all(part).is_err() {
                return;
            }
        }
    });
    let output = child.wait_with_output().unwrap();
    writer.join().unwrap();
    assert!(output.status.success(), "{}", output.status);
    output.stdout
}
