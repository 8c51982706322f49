//! Runs programs for x86-64: a proved program of the repository, as `rt ci` or `rt run` leaves it, or one that a test compiled.
use std::io::{ErrorKind, Write};
use std::path::{Path, PathBuf};
use std::process::{Command, Stdio};
use std::time::Duration;

fn path(name: &str) -> PathBuf {
    let crates = PathBuf::from(env!("CARGO_MANIFEST_DIR")).join("../crates");
    let program = crates.join(name).join("out").join(name);
    assert!(program.exists(), "there is no {}: run `rt run` in its crate first", program.display());
    program
}

/// Starts a program: by itself, or by the command that the environment names as `RUNNER`, an emulator where this machine is no x86-64.
pub fn command(program: &Path) -> Command {
    match std::env::var_os("RUNNER") {
        None => Command::new(program),
        Some(runner) => {
            let mut command = Command::new(runner);
            command.arg(program);
            command
        }
    }
}

/// What the program writes when it is handed the input in these pieces, one at a time.
pub fn output_of_pieces(name: &str, pieces: &[&[u8]]) -> Vec<u8> {
    let mut child = command(&path(name))
        .stdin(Stdio::piped())
        .stdout(Stdio::piped())
        .stderr(Stdio::piped())
        .spawn()
        .expect("the program starts");
    let mut stdin = child.stdin.take().expect("its input is a pipe");
    for (i, piece) in pieces.iter().enumerate() {
        if i > 0 {
            std::thread::sleep(Duration::from_millis(2));
        }
        // a program that has read enough may close its input
        if let Err(error) = stdin.write_all(piece) {
            assert_eq!(error.kind(), ErrorKind::BrokenPipe, "{error}");
        }
    }
    drop(stdin);
    let ended = child.wait_with_output().expect("the program ends");
    assert!(ended.status.success(), "{name} ended with {}", ended.status);
    assert!(ended.stderr.is_empty(), "{name} wrote to standard error");
    ended.stdout
}

/// What the program writes for an input.
pub fn output(name: &str, input: &[u8]) -> Vec<u8> {
    output_of_pieces(name, &[input])
}
