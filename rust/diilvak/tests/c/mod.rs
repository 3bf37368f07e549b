//! The repository's files, and what a C compiler makes of its headers. The tests of the add-on take them too.
#![allow(dead_code)] // Each test takes what it needs.
pub mod fields;
pub mod names;

use std::path::PathBuf;
use std::process::Command;

pub fn root() -> PathBuf {
    PathBuf::from(env!("CARGO_MANIFEST_DIR")).join("../..")
}

pub fn read(file: &str) -> String {
    std::fs::read_to_string(root().join(file)).unwrap_or_else(|fault| panic!("{file}: {fault}"))
}

/// What a command prints that succeeds without a word of complaint.
pub fn run(command: &mut Command) -> String {
    let output = command.output().unwrap_or_else(|fault| panic!("{command:?}: {fault}"));
    let text = |bytes: &[u8]| String::from_utf8_lossy(bytes).into_owned();
    let said = text(&output.stderr);
    assert!(output.status.success() && said.is_empty(), "{command:?}: {said}");
    text(&output.stdout)
}

/// What an example prints, compiled without a warning and linked with one of the libraries in a folder.
pub fn printed(name: &str, folder: &str, library: &str) -> String {
    let program = PathBuf::from(env!("CARGO_TARGET_TMPDIR")).join(name);
    run(Command::new("cc")
        .args(["-std=c11", "-Wall", "-Wextra", "-pedantic", "-Iinclude"])
        .arg(format!("examples/{name}.c"))
        .args(["-L", folder, "-l", library, "-o"])
        .arg(&program)
        .current_dir(root()));
    run(&mut Command::new(&program))
}

/// A header compiles by itself, as C and as C++.
pub fn compiles_by_itself(header: &str) {
    for language in ["c", "c++"] {
        run(Command::new("cc")
            .args(["-Wall", "-Wextra", "-pedantic", "-fsyntax-only", "-x", language])
            .args(["-include", header, "/dev/null"])
            .current_dir(root()));
    }
}

/// A C compiler finds each of these true, after the headers.
pub fn all_true_in_c(name: &str, headers: &[&str], claims: impl IntoIterator<Item = String>) {
    let mut source: String =
        headers.iter().map(|header| format!("#include \"{header}\"\n")).collect();
    for claim in claims {
        source += &format!("_Static_assert({claim}, \"{claim}\");\n");
    }
    let file = PathBuf::from(env!("CARGO_TARGET_TMPDIR")).join(name);
    std::fs::write(&file, source).unwrap();
    run(Command::new("cc")
        .args(["-std=c11", "-Wall", "-Wextra", "-fsyntax-only", "-I."])
        .arg(&file)
        .current_dir(root()));
}
