//! The program named forecast against the second program, byte for byte.

use second::print::printed;
use second::{damage, random, writer};
use std::fs::File;
use std::io::Write;
use std::path::PathBuf;
use std::process::{Child, Command, Output, Stdio};

/// How many random snapshots, and how many damaged copies, are given to the program.
const STARTS: u64 = 300;

fn repository() -> PathBuf {
    PathBuf::from(concat!(env!("CARGO_MANIFEST_DIR"), "/../.."))
}

/// The program with standard input and error connected: that of BARRIEROSE_FORECAST, by default the proved one.
fn program(out: Stdio) -> Child {
    let named = std::env::var("BARRIEROSE_FORECAST").unwrap_or("crates/forecast/out/forecast".to_string());
    let path = repository().join(named);
    let mut command = Command::new(&path);
    command.stdin(Stdio::piped()).stdout(out).stderr(Stdio::piped());
    command.spawn().unwrap_or_else(|fault| panic!("{}: {fault}", path.display()))
}

/// Gives the input in pieces; the program may stop reading once it has the bytes that decide.
fn run(input: &[u8], piece: usize) -> Output {
    let mut child = program(Stdio::piped());
    let mut pipe = child.stdin.take().expect("it was connected");
    std::thread::scope(|scope| {
        scope.spawn(move || input.chunks(piece).try_for_each(|piece| pipe.write_all(piece)));
        child.wait_with_output().expect("the program was started")
    })
}

fn compare(what: &str, input: &[u8], piece: usize) {
    let output = run(input, piece);
    let wanted = printed(input);
    assert!(output.status.success(), "{what}: {}", output.status);
    assert!(output.stderr.is_empty(), "{what}: {}", String::from_utf8_lossy(&output.stderr));
    assert!(output.stdout == wanted.as_bytes(), "{what}:\n{}", String::from_utf8_lossy(&output.stdout));
}

fn made(seed: u64) -> (String, Vec<u8>) {
    let kind = random::KINDS[seed as usize % random::KINDS.len()];
    let kind = format!("{}{kind}", ["", "mixed-"][seed as usize % 2]);
    (format!("random {seed} {kind}"), writer::write(&random::random(seed, &kind).expect("a kind")))
}

#[test]
fn random_snapshots() {
    for seed in 0..STARTS {
        let (what, bytes) = made(seed);
        compare(&what, &bytes, bytes.len());
    }
}

#[test]
fn damaged_copies() {
    for seed in 0..STARTS {
        let (what, bytes) = made(seed);
        compare(&format!("damage {seed} of {what}"), &damage::damage(&bytes, seed), 4096);
    }
}

#[test]
fn inputs_in_small_pieces() {
    for (seed, piece) in [(0, 1), (1, 1), (2, 7), (5, 1000), (5, 4095)] {
        let (what, bytes) = made(seed);
        compare(&what, &bytes, piece);
    }
}

/// The longest snapshot with more behind it than the program has to look at.
#[test]
fn longer_than_the_longest() {
    let longest = writer::write(&random::random(1, "limits").expect("a kind"));
    assert_eq!(longest.len(), 55_623);
    for more in [1, 2, 1000, 100_000] {
        let input = [&longest[..], &vec![6; more]].concat();
        compare(&format!("{more} bytes more than the longest"), &input, input.len());
        assert_eq!(printed(&input), "refused 10 55623\n");
    }
}

/// Each router of 64 with the id of the one before it, of the first, and of one between: refused at its own record.
#[test]
fn twins() {
    let snapshot = random::random(1, "limits").expect("a kind");
    let routers = snapshot.ids.len();
    assert_eq!(routers, 64);
    for later in 1..routers {
        for earlier in [0, later / 2, later - 1] {
            let mut snapshot = snapshot.clone();
            snapshot.ids[later] = snapshot.ids[earlier];
            let input = writer::write(&snapshot);
            compare(&format!("router {later} with the id of router {earlier}"), &input, input.len());
            assert_eq!(printed(&input), format!("refused 7 {}\n", 2 + 6 * later));
        }
    }
}

/// What document 01 says of inputs that hardly begin.
#[test]
fn next_to_nothing() {
    assert_eq!(run(&[], 1).stdout, b"refused 2 0\n");
    assert_eq!(run(&[1], 1).stdout, b"refused 2 0\n");
    assert_eq!(run(&[0], 1).stdout, b"refused 3 0\n");
}

#[test]
fn the_samples() {
    let samples = std::fs::read_dir(repository().join("samples")).expect("the samples are there");
    let paths = samples.map(|entry| entry.expect("it can be listed").path());
    let snapshots: Vec<PathBuf> = paths.filter(|path| path.extension().is_some_and(|end| end == "snapshot")).collect();
    assert!(snapshots.len() >= 5);
    for snapshot in snapshots {
        let input = std::fs::read(&snapshot).expect("the snapshot can be read");
        let wanted = std::fs::read(snapshot.with_extension("forecast")).expect("it has a forecast");
        assert!(run(&input, input.len()).stdout == wanted, "{}", snapshot.display());
    }
}

#[test]
fn a_write_that_fails_is_reported() {
    let full = File::options().write(true).open("/dev/full").expect("there is such a device");
    let mut child = program(full.into());
    child.stdin.take().expect("it was connected").write_all(&made(1).1).expect("the program reads");
    assert!(!child.wait_with_output().expect("the program was started").stderr.is_empty());
}
