//! The programs `listing`, `claim_write` and `claim_check` as a person starts them: what they print
//! and what they say on standard error, to the letter.
#![cfg(feature = "proved")]

use against::reference::listing;
use against::tables::{by_name, Model, STEP};
use std::fs::{File, OpenOptions};
use std::os::fd::{FromRawFd, OwnedFd};
use std::os::unix::process::CommandExt;
use std::path::{Path, PathBuf};
use std::process::Command;

const GOOD: &[u8] = &[1, 5, 1, 3, 3, 13, 3];

/// A table whose listing takes more than a page of 4,096 bytes.
fn long() -> Vec<u8> {
    let mut model = Model::new([10, 9, 0], 0, 0, &[0, 0, 0, 0]);
    for t in 0..4 {
        for (g, l) in (0..90).map(|i| (i / 9, i % 9)) {
            model.add(STEP, [t, g, l, (g + 1) % 10, l]);
            model.add(STEP, [t, g, l, g, (l + 1) % 9]);
        }
    }
    model.sorted().bytes()
}

/// A test's own folder, made anew, with tables, claims and a folder in it.
fn folder(name: &str) -> PathBuf {
    let folder = Path::new(env!("CARGO_TARGET_TMPDIR")).join(name);
    let _ = std::fs::remove_dir_all(&folder);
    std::fs::create_dir_all(folder.join("folder")).unwrap();
    let table = by_name("recursion").unwrap().bytes();
    let files: [(&str, &[u8]); 8] = [
        ("table", &table),
        ("cut", &table[..28]),
        ("empty", &[]),
        ("mutex", &by_name("mutex").unwrap().bytes()),
        ("long", &long()),
        ("good", GOOD),
        ("lacking", &[1, 4, 1, 3, 3, 13]),
        ("cut-claim", &GOOD[..4]),
    ];
    for (file, bytes) in files {
        std::fs::write(folder.join(file), bytes).unwrap();
    }
    folder
}

/// A program, to be started in a folder.
fn program(name: &str, folder: &Path, arguments: &[&str]) -> Command {
    let top = Path::new(env!("CARGO_MANIFEST_DIR")).join("..");
    let file = top.join("target/bin").join(name);
    assert!(
        file.exists(),
        "{name} is not built: first run `rt check {name}` at the top of the repository"
    );
    let mut command = Command::new(file.canonicalize().unwrap());
    command.current_dir(folder).args(arguments);
    command
}

/// The command with a descriptor closed: 0 is standard input, 1 standard output.
fn without(mut command: Command, descriptor: i32) -> Command {
    // after the descriptors are set and before the program starts, nothing else uses this one
    unsafe {
        command.pre_exec(move || {
            drop(OwnedFd::from_raw_fd(descriptor));
            Ok(())
        });
    }
    command
}

/// The command with a standard output that takes no byte.
fn full(mut command: Command) -> Command {
    let device = OpenOptions::new().write(true).open("/dev/full").unwrap();
    command.stdout(device);
    command
}

/// What a program prints, and what it says on standard error.
#[track_caller]
fn tells(mut command: Command, printed: &str, said: &str) {
    let output = command.output().unwrap();
    assert_eq!(output.status.code(), Some(0));
    assert_eq!(String::from_utf8(output.stdout).unwrap(), printed);
    assert_eq!(String::from_utf8(output.stderr).unwrap(), said);
}

/// `listing` with a file of the folder for its standard input.
fn listing_of(folder: &Path, file: &str) -> Command {
    let mut command = program("listing", folder, &[]);
    command.stdin(File::open(folder.join(file)).unwrap());
    command
}

#[test]
fn listing_prints_what_document_01_says() {
    let folder = folder("listing-prints");
    for file in ["table", "mutex", "long"] {
        let expected = listing(&std::fs::read(folder.join(file)).unwrap());
        assert!(file != "long" || expected.len() > 4_200);
        tells(listing_of(&folder, file), &expected, "");
    }
}

#[test]
fn listing_says_a_refusal_in_words() {
    let folder = folder("listing-refuses");
    for (file, printed, said) in [
        (
            "cut",
            "refused 1 28\n",
            "byte 28: the file ends here, and more is due\n",
        ),
        (
            "empty",
            "refused 1 0\n",
            "byte 0: the file ends here, and more is due\n",
        ),
    ] {
        tells(listing_of(&folder, file), printed, said);
    }
}

#[test]
fn listing_says_what_is_wrong_with_its_input_and_output() {
    let folder = folder("listing-unread");
    for arguments in [&["--help"][..], &["table"], &["table", "good"]] {
        let said = "usage: listing < TABLE\n";
        tells(program("listing", &folder, arguments), "", said);
    }
    let said = "cannot read standard input: Is a directory\n";
    tells(listing_of(&folder, "folder"), "", said);
    let said = "cannot read standard input: Bad file descriptor\n";
    tells(without(program("listing", &folder, &[]), 0), "", said);
    let said = "cannot write standard output: Bad file descriptor\n";
    tells(without(listing_of(&folder, "table"), 1), "", said);
    for file in ["table", "long", "empty"] {
        let said = "cannot write standard output: No space left on device\n";
        tells(full(listing_of(&folder, file)), "", said);
    }
}

#[test]
fn claim_write_writes_a_claim() {
    let folder = folder("claim-write-writes");
    let printed = "facts 5\nverdict safe\nbytes 7\n";
    tells(
        program("claim_write", &folder, &["table", "new"]),
        printed,
        "",
    );
    assert_eq!(std::fs::read(folder.join("new")).unwrap(), GOOD);
    tells(
        program("claim_check", &folder, &["table", "new"]),
        "accepted 5\n",
        "",
    );
    let printed = "facts 80\nverdict possible 0 0 0 6\nbytes 84\n";
    tells(
        program("claim_write", &folder, &["mutex", "new"]),
        printed,
        "",
    );
}

#[test]
fn claim_write_says_a_refusal_in_words() {
    let folder = folder("claim-write-refuses");
    let said = "byte 28: the file ends here, and more is due\n";
    let command = program("claim_write", &folder, &["cut", "new"]);
    tells(command, "refused 1 28\n", said);
    assert!(!folder.join("new").exists());
}

/// What both claim programs say of their arguments and of their table's file.
fn unread(name: &str, folder: &Path) {
    let usage = format!("usage: {name} TABLE CLAIM\n");
    for arguments in [&[][..], &["--help"], &["table"], &["table", "good", "good"]] {
        tells(program(name, folder, arguments), "", &usage);
    }
    let long_name = "a".repeat(5_000);
    for (table, claim, said) in [
        (
            "missing",
            "good",
            "cannot open missing: No such file or directory\n",
        ),
        ("folder", "good", "cannot read folder: Is a directory\n"),
        (
            "table",
            "table",
            "the table and the claim are the same file: table\n",
        ),
        (
            &long_name,
            "good",
            "cannot open argument 1: File name too long\n",
        ),
        (
            &long_name,
            &long_name,
            "cannot open argument 1: File name too long\n",
        ),
    ] {
        tells(program(name, folder, &[table, claim]), "", said);
    }
    let said = "cannot write standard output: No space left on device\n";
    tells(full(program(name, folder, &["table", "good"])), "", said);
    let said = "cannot write standard output: Bad file descriptor\n";
    tells(
        without(program(name, folder, &["table", "good"]), 1),
        "",
        said,
    );
}

#[test]
fn claim_write_says_what_is_wrong_with_a_file() {
    let folder = folder("claim-write-unread");
    unread("claim_write", &folder);
    let table = std::fs::read(folder.join("table")).unwrap();
    assert_eq!(table, by_name("recursion").unwrap().bytes());
    assert_eq!(std::fs::read(folder.join("good")).unwrap(), GOOD);
    let long_name = "a".repeat(5_000);
    for (claim, said) in [
        ("folder", "cannot write folder: Is a directory\n"),
        (
            "missing/new",
            "cannot write missing/new: No such file or directory\n",
        ),
        (
            "/dev/full",
            "cannot write /dev/full: No space left on device\n",
        ),
        (&long_name, "cannot write argument 2: File name too long\n"),
    ] {
        tells(program("claim_write", &folder, &["table", claim]), "", said);
    }
}

#[test]
fn claim_check_says_a_refusal_in_words() {
    let folder = folder("claim-check-refuses");
    for (table, claim, printed, said) in [
        ("table", "good", "accepted 5\n", ""),
        (
            "table",
            "lacking",
            "refused 10 23 0\n",
            "position 23: a rule gives this fact, and the claim lacks it\n",
        ),
        (
            "table",
            "cut-claim",
            "refused 1 4 1\n",
            "claim byte 4: the file ends here, and more is due\n",
        ),
        (
            "cut",
            "good",
            "refused 1 28 0\n",
            "byte 28: the file ends here, and more is due\n",
        ),
    ] {
        let command = program("claim_check", &folder, &[table, claim]);
        tells(command, printed, said);
    }
}

#[test]
fn claim_check_says_what_is_wrong_with_a_file() {
    let folder = folder("claim-check-unread");
    unread("claim_check", &folder);
    let long_name = "a".repeat(5_000);
    for (claim, said) in [
        (
            "missing",
            "cannot open missing: No such file or directory\n",
        ),
        ("folder", "cannot read folder: Is a directory\n"),
        (&long_name, "cannot open argument 2: File name too long\n"),
    ] {
        tells(program("claim_check", &folder, &["table", claim]), "", said);
    }
}
