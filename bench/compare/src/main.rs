//! Compares the proved calls and program with the plain ones and prints the times: compare DIR PLAIN PROVED, with a
//! directory of snapshots and the two programs. It fails if any answer differs; of the times it asserts nothing.

mod clock;
mod growth;
mod programs;
mod proved;
mod sides;

use clock::{median, samples, shortest, Run};
use programs::Programs;
use sides::Sides;
use std::process::ExitCode;

const INPUTS: [&str; 6] = ["typical", "mixed", "tied", "chain-early", "chain-late", "longest"];

/// Policies for the snapshot of sessions.
const POLICIES: [&str; 2] = ["some-clauses", "all-clauses"];

fn main() -> ExitCode {
    let arguments: Vec<String> = std::env::args().skip(1).collect();
    let done = match &arguments[..] {
        [inputs, plain, proved] => compare(inputs, &Programs { plain: plain.clone(), proved: proved.clone() }),
        _ => Err("usage: compare DIR PLAIN PROVED".to_string()),
    };
    match done {
        Ok(()) => ExitCode::SUCCESS,
        Err(fault) => {
            eprintln!("{fault}");
            ExitCode::FAILURE
        }
    }
}

fn compare(directory: &str, programs: &Programs) -> Result<(), String> {
    println!("Answers were compared first; buffers are not cleared between calls.\n");
    println!("Nanoseconds a call, medians");
    println!("{:<13}{:<10}{:>12}{:>12}{:>8}", "input", "call", "plain", "proved", "ratio");
    for name in INPUTS {
        let file = format!("{directory}/{name}.snapshot");
        let mut sides = Sides::new(bytes(&file)?).map_err(|fault| format!("{name}: {fault}"))?;
        let prefixes = sides.prefixes();
        line(name, "read", sides.reading(), 1);
        line(name, "write", sides.writing(), 1);
        line(name, "forecast", sides.forecasting(), prefixes);
        line(name, "program", programs.on(&file)?, 1);
    }
    for name in POLICIES {
        let mut sides = Sides::new(bytes(&format!("{directory}/sessions.snapshot"))?)?;
        let policy = bytes(&format!("{directory}/{name}.policy"))?;
        line(name, "policy", sides.applying(&policy).map_err(|fault| format!("{name}: {fault}"))?, 1);
    }
    println!("\nNanoseconds a call, shortest times");
    println!("{:<30}{:<8}{:>11}{:>11}{:>11}{:>9}", "growth", "", "least", "one more", "ten more", "times");
    grow_calls("read 0, 102, 1020 routes", growth::in_routes(), Sides::reading)?;
    grow_calls("write 0, 102, 1020 routes", growth::in_routes(), Sides::writing)?;
    grow_calls("forecast 2, 24, 222 rounds", growth::in_rounds()?, Sides::forecasting)?;
    grow_programs("program 0, 6, 60 prefixes", growth::in_prefixes(), directory, programs)
}

fn bytes(file: &str) -> Result<Vec<u8>, String> {
    std::fs::read(file).map_err(|fault| format!("{file}: {fault}"))
}

/// Times runs of so many calls each, and prints the times of one call.
fn line(name: &str, call: &str, runs: [Run; 2], calls: usize) {
    let samples = samples(runs);
    let [plain, proved] = [0, 1].map(|side| median(&samples, |times| times[side]) / calls as f64);
    let ratio = median(&samples, |[plain, proved]| proved / plain);
    println!("{name:<13}{call:<10}{plain:>12.0}{proved:>12.0}{ratio:>8.2}");
}

fn grow_calls(what: &str, three: [Vec<u8>; 3], runs: fn(&mut Sides) -> [Run<'_>; 2]) -> Result<(), String> {
    let [least, one, ten] = three.map(Sides::new);
    let (mut least, mut one, mut ten) = (least?, one?, ten?);
    grow(what, [runs(&mut least), runs(&mut one), runs(&mut ten)]);
    Ok(())
}

fn grow_programs(what: &str, three: [Vec<u8>; 3], directory: &str, programs: &Programs) -> Result<(), String> {
    let files = ["least", "one-more", "ten-more"].map(|name| format!("{directory}/{name}.snapshot"));
    for (file, bytes) in files.iter().zip(three) {
        std::fs::write(file, bytes).map_err(|fault| format!("{file}: {fault}"))?;
    }
    let [least, one, ten] = &files;
    grow(what, [programs.on(least)?, programs.on(one)?, programs.on(ten)?]);
    Ok(())
}

/// How many times as much ten measures cost as one does, over the least. These are differences of times, so the
/// shortest ones are taken: medians would differ by disturbances too.
fn grow(what: &str, [[a, b], [c, d], [e, f]]: [[Run; 2]; 3]) {
    let samples = samples([a, c, e, b, d, f]);
    for (side, first) in [("plain", 0), ("proved", 3)] {
        let [least, one, ten] = [first, first + 1, first + 2].map(|run| shortest(&samples, run));
        let times = (ten - least) / (one - least);
        println!("{what:<30}{side:<8}{least:>11.0}{one:>11.0}{ten:>11.0}{times:>9.1}");
    }
}
