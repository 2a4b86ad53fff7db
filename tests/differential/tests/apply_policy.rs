//! The program named apply_policy against the second program: every byte on standard output and standard error.

use differential::policy::made;
use second::damage::{damage, damage_policy};
use second::policy::apply::rewritten;
use std::fs::File;
use std::path::{Path, PathBuf};
use std::process::{Command, Output, Stdio};

/// How many random pairs are given to the program, whole and damaged.
const PAIRS: u64 = 120;

/// The program: that of BARRIEROSE_APPLY_POLICY, by default the proved one.
fn program() -> Command {
    let named = std::env::var("BARRIEROSE_APPLY_POLICY").unwrap_or("crates/apply_policy/out/apply_policy".to_string());
    Command::new(Path::new(concat!(env!("CARGO_MANIFEST_DIR"), "/../..")).join(named))
}

fn run(snapshot: &Path, policy: &Path) -> Output {
    program().arg(snapshot).arg(policy).output().expect("the program can be started")
}

/// A file of this test's own.
fn file(name: &str, bytes: &[u8]) -> PathBuf {
    let path = std::env::temp_dir().join(format!("barrierose-{}-{name}", std::process::id()));
    std::fs::write(&path, bytes).expect("the file can be written");
    path
}

/// Runs the program on both files and wants what the second program says, on the stream where it belongs.
fn compare(what: &str, snapshot: &[u8], policy: &[u8]) -> bool {
    let name = what.replace(|letter: char| !letter.is_ascii_alphanumeric(), "-");
    let (snapshot_file, policy_file) = (file(&format!("{name}.snapshot"), snapshot), file(&name, policy));
    let output = run(&snapshot_file, &policy_file);
    let (stdout, stderr) = match rewritten(snapshot, policy) {
        Ok(bytes) => (bytes, String::new()),
        Err(refused) => (Vec::new(), format!("{refused}\n")),
    };
    assert!(output.status.success(), "{what}: {}", output.status);
    assert_eq!(String::from_utf8_lossy(&output.stderr), stderr, "{what}");
    assert!(output.stdout == stdout, "{what}: other bytes");
    std::fs::remove_file(snapshot_file).and(std::fs::remove_file(policy_file)).expect("the files are there");
    stderr.is_empty()
}

#[test]
fn random_policies() {
    for seed in 0..PAIRS {
        let (what, snapshot, policy) = made(seed);
        assert!(compare(&what, &snapshot, &policy));
    }
}

#[test]
fn damaged_files() {
    let mut applied = 0;
    for seed in 0..PAIRS {
        let (what, snapshot, policy) = made(seed);
        applied += usize::from(compare(&format!("{what} damaged"), &snapshot, &damage_policy(&policy, seed)));
        applied += usize::from(compare(&format!("{what} of damaged"), &damage(&snapshot, seed), &policy));
    }
    assert!(applied > 10 && applied < PAIRS as usize);
}

/// Both files longer than any sound one.
#[test]
fn longer_than_the_longest() {
    let (_, snapshot, policy) = made(0);
    let longer = |bytes: &[u8]| [bytes, &[6; 100_000]].concat();
    assert!(!compare("a long policy", &snapshot, &longer(&policy)));
    assert!(!compare("a long snapshot", &longer(&snapshot), &policy));
}

#[test]
fn a_write_that_fails_is_reported() {
    let full = File::options().write(true).open("/dev/full").expect("there is such a device");
    let (_, snapshot, policy) = made(1);
    let files = [file("full.snapshot", &snapshot), file("full.policy", &policy)];
    let child = program().args(&files).stdout(full).stderr(Stdio::piped()).spawn().expect("the program can be started");
    assert!(!child.wait_with_output().expect("the program was started").stderr.is_empty());
    files.iter().for_each(|file| std::fs::remove_file(file).expect("the file is there"));
}
