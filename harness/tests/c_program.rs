//! C programs, compiled against the header, call each function.
use harness::program::command;
use std::path::{Path, PathBuf};
use std::process::Command;

/// Compiles a program against the header, by gcc or by the compiler that the environment names as `CC`, and runs it; what it writes. It ends
/// with 0 if all is as it should be.
fn output(source: &Path) -> String {
    let home = Path::new(env!("CARGO_MANIFEST_DIR"));
    let program = Path::new(env!("CARGO_TARGET_TMPDIR")).join(source.file_stem().unwrap());
    let compiler = std::env::var("CC").unwrap_or_else(|_| "gcc".to_string());
    let compiled = Command::new(&compiler)
        .args(["-std=c11", "-Wall", "-Wextra", "-Wpedantic", "-Werror", "-O1", "-I"])
        .arg(home.join("../include"))
        .arg(source)
        .arg(home.join("../target/staticlib/librecorder.a"))
        .arg("-o")
        .arg(&program)
        .output()
        .unwrap_or_else(|error| panic!("{compiler}: {error}"));
    assert!(compiled.status.success(), "{}", String::from_utf8_lossy(&compiled.stderr));
    let ran = command(&program).output().expect("the program starts");
    let written = String::from_utf8(ran.stdout).expect("it writes text");
    assert!(ran.status.success(), "{written}");
    written
}

/// Compiles and runs a program of harness/c.
fn run(name: &str) {
    output(&Path::new(env!("CARGO_MANIFEST_DIR")).join("c").join(name).with_extension("c"));
}

#[test]
fn a_c_program_calls_each_function() {
    run("calls");
}

#[test]
fn a_c_program_writes_through_a_failure() {
    run("engine");
}

#[test]
fn a_c_program_fills_a_card_while_requests_go_on() {
    run("fill");
}

/// What stands in a document between the marks of a C text, the first there is, with this behind it, as a program of this name.
fn documented(document: &str, behind: &str, name: &str) -> PathBuf {
    let path = Path::new(env!("CARGO_MANIFEST_DIR")).join("..").join(document);
    let text = std::fs::read_to_string(path).expect("the document is there");
    let (_, from) = text.split_once("```c\n").expect("it has a C text");
    let (example, _) = from.split_once("```").expect("the C text ends");
    let source = Path::new(env!("CARGO_TARGET_TMPDIR")).join(name);
    std::fs::write(&source, format!("{example}\n{behind}")).expect("the program is written");
    source
}

#[test]
fn the_example_of_the_readme() {
    assert_eq!(output(&documented("README.md", "", "example.c")), "as sent\n");
}

#[test]
fn the_old_box_of_the_c_interface() {
    let behind = include_str!("../c/old_box.c");
    assert_eq!(output(&documented("docs/C-INTERFACE.md", behind, "old_box.c")), "");
}
