//! The C programs of `examples/`: they build without a warning, print document 01's lines, and end
//! with the status that their heads promise.
#![cfg(feature = "proved")]

use against::tables;
use std::path::{Path, PathBuf};
use std::process::{Command, Output};

/// The tests' own folder, made anew, with the program built from `examples/NAME.c` in it.
fn built(name: &str) -> (PathBuf, PathBuf) {
    let top = Path::new(env!("CARGO_MANIFEST_DIR")).join("..");
    let folder = Path::new(env!("CARGO_TARGET_TMPDIR")).join(name);
    let _ = std::fs::remove_dir_all(&folder);
    std::fs::create_dir_all(folder.join("folder")).unwrap();
    let program = folder.join(name);
    let made = Command::new("cc")
        .args(["-std=c99", "-Wall", "-Wextra", "-Werror", "-pedantic"])
        .arg("-I")
        .arg(top.join("include"))
        .arg(top.join("examples").join(format!("{name}.c")))
        .arg(top.join("target/staticlib/libtruppidane.a"))
        .arg("-o")
        .arg(&program)
        .output()
        .unwrap();
    assert!(
        made.status.success(),
        "{}",
        String::from_utf8_lossy(&made.stderr)
    );
    (folder, program)
}

/// Runs a program on files of the folder.
fn run(folder: &Path, program: &Path, files: &[&str]) -> Output {
    Command::new(program)
        .current_dir(folder)
        .args(files)
        .output()
        .unwrap()
}

/// The status and standard output of a run; standard error must be empty exactly if it was read.
fn told(output: &Output) -> (i32, String) {
    let printed = String::from_utf8(output.stdout.clone()).unwrap();
    assert_eq!(printed.is_empty(), !output.stderr.is_empty());
    (output.status.code().unwrap(), printed)
}

fn named(name: &str) -> Vec<u8> {
    tables::by_name(name).unwrap().bytes()
}

/// Files that cannot be read: none, a folder. Each is told apart, by the name and the system's reason.
fn unread(folder: &Path, program: &Path, before: &[&str], after: &[&str]) {
    for (name, reason) in [("missing", "No such file"), ("folder", "Is a directory")] {
        let files: Vec<&str> = before.iter().chain([&name]).chain(after).copied().collect();
        let output = run(folder, program, &files);
        assert_eq!(told(&output), (2, String::new()));
        let error = String::from_utf8(output.stderr).unwrap();
        assert!(
            error.starts_with(&format!("{name}: ")) && error.contains(reason),
            "{error}"
        );
    }
}

#[test]
fn check_tells_its_verdict_by_its_status() {
    let (folder, program) = built("check");
    std::fs::write(folder.join("safe"), named("recursion")).unwrap();
    std::fs::write(folder.join("possible"), named("mutex")).unwrap();
    std::fs::write(folder.join("cut"), &named("recursion")[..28]).unwrap();
    std::fs::write(folder.join("empty"), []).unwrap();
    for (file, status, printed) in [
        ("safe", 0, "facts 5\nverdict safe\n"),
        ("possible", 1, "facts 80\nverdict possible 0 0 0 6\n"),
        ("cut", 2, "refused 1 28\n"),
        ("empty", 2, "refused 1 0\n"),
    ] {
        let output = run(&folder, &program, &[file]);
        assert_eq!(told(&output), (status, printed.to_string()), "{file}");
    }
    unread(&folder, &program, &[], &[]);
    for arguments in [&[][..], &["safe", "safe"]] {
        let output = run(&folder, &program, arguments);
        assert_eq!(told(&output), (2, String::new()));
        assert_eq!(output.stderr, b"usage: check TABLE\n");
    }
}

#[test]
fn claim_tells_by_its_status_whether_to_load() {
    let (folder, program) = built("claim");
    let claims: [(&str, &[u8]); 3] = [
        ("good", &[1, 5, 1, 3, 3, 13, 3]),
        ("lacking", &[1, 4, 1, 3, 3, 13]),
        ("cut", &[1, 5, 1, 3]),
    ];
    for (name, bytes) in claims {
        std::fs::write(folder.join(name), bytes).unwrap();
    }
    std::fs::write(folder.join("table"), named("recursion")).unwrap();
    std::fs::write(folder.join("other"), named("mutex")).unwrap();
    std::fs::write(folder.join("short"), &named("recursion")[..28]).unwrap();
    for (table, claim, status, printed) in [
        ("table", "good", 0, "accepted 5\n"),
        ("table", "lacking", 1, "refused 10 23 0\n"),
        ("table", "cut", 1, "refused 1 4 1\n"),
        ("other", "good", 1, "refused 9 0 0\n"),
        ("short", "good", 1, "refused 1 28 0\n"),
    ] {
        let output = run(&folder, &program, &[table, claim]);
        assert_eq!(
            told(&output),
            (status, printed.to_string()),
            "{table} {claim}"
        );
    }
    unread(&folder, &program, &[], &["good"]);
    unread(&folder, &program, &["table"], &[]);
    for arguments in [&[][..], &["table"], &["table", "good", "good"]] {
        let output = run(&folder, &program, arguments);
        assert_eq!(told(&output), (2, String::new()));
        assert_eq!(output.stderr, b"usage: claim TABLE CLAIM\n");
    }
}
