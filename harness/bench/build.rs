//! Compiles the plain C loops at -O3. The package `harness` links the static library of the recorder's C functions.
use std::path::PathBuf;
use std::process::Command;

fn main() {
    let out = PathBuf::from(std::env::var("OUT_DIR").unwrap());
    let object = out.join("plain.o");
    run(Command::new("gcc").args(["-O3", "-c", "src/plain.c", "-o"]).arg(&object));
    run(Command::new("ar").arg("rcs").arg(out.join("libplain.a")).arg(&object));
    println!("cargo:rerun-if-changed=src/plain.c");
    println!("cargo:rustc-link-search=native={}", out.display());
    println!("cargo:rustc-link-lib=static=plain");
}

fn run(command: &mut Command) {
    assert!(command.status().expect("it starts").success(), "{command:?} failed");
}
