//! The header: what it declares, how its structs lie, and what C programs get through it.

mod answers;
mod declarations;
mod layouts;
mod parse;

use std::env;
use std::ffi::OsString;
use std::fs;
use std::path::{Path, PathBuf};
use std::process::{Command, Output};

/// The top of the tree.
fn top() -> PathBuf {
    Path::new(env!("CARGO_MANIFEST_DIR")).join("../..")
}

/// The static library that the Rust crate links, too.
fn library() -> PathBuf {
    let given = env::var_os("CAPTIONS_LIB_DIR");
    let folder = given.unwrap_or("../../target/staticlib".into());
    top()
        .join("rust/captions")
        .join(folder)
        .join("libcaptions.a")
}

/// Compiles with the header and the library; every warning is an error.
fn compile(compiler: &str, arguments: &[&str], source: &Path, program: &Path) {
    let mut command = Command::new(compiler);
    command.args(arguments);
    command.args(["-Wall", "-Wextra", "-Wpedantic", "-Werror", "-O1"]);
    command.arg("-I").arg(top().join("include"));
    command.arg(source).args(linked());
    let status = command.arg("-o").arg(program).status();
    let status = status.unwrap_or_else(|why| panic!("{compiler}: {why}"));
    assert!(status.success(), "{} does not compile", source.display());
}

/// The library as an argument that does not depend on the language before it.
fn linked() -> [OsString; 3] {
    ["-x".into(), "none".into(), library().into_os_string()]
}

fn program(name: &str) -> PathBuf {
    Path::new(env!("CARGO_TARGET_TMPDIR")).join(name)
}

fn run(program: &Path) -> String {
    let output = Command::new(program).output().expect("the program runs");
    assert!(
        output.status.success(),
        "{}: {}",
        program.display(),
        output.status
    );
    String::from_utf8(output.stdout).expect("text")
}

/// Runs a C file of the tree.
fn run_file(source: &str, name: &str) -> String {
    compile("cc", &["-std=c99"], &top().join(source), &program(name));
    run(&program(name))
}

/// Runs a program on a file of the tree, and other words, in an empty folder, which is given too.
fn run_in_folder(program: &Path, file: &str, words: &[&str]) -> (Output, PathBuf) {
    let folder = program.with_extension("folder");
    fs::remove_dir_all(&folder).ok();
    fs::create_dir(&folder).expect("a folder can be made");
    let mut command = Command::new(program);
    command.arg(top().join(file)).args(words);
    command.current_dir(&folder);
    (command.output().expect("the program runs"), folder)
}

/// Runs a C program that is given as text.
fn run_source(name: &str, text: &str) -> String {
    let source = program(&format!("{name}.c"));
    fs::write(&source, text).expect("the program can be written");
    compile("cc", &["-std=c99"], &source, &program(name));
    run(&program(name))
}
