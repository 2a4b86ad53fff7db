//! The two programs, from their start to their end.

use crate::clock::Run;
use std::fs::File;
use std::process::{Command, Stdio};

pub struct Programs {
    pub plain: String,
    pub proved: String,
}

impl Programs {
    /// Compares what they print for the snapshot in a file; the runs to be timed.
    pub fn on<'a>(&'a self, file: &'a str) -> Result<[Run<'a>; 2], String> {
        if printed(&self.plain, file)? != printed(&self.proved, file)? {
            return Err(format!("{file}: the two programs print something else"));
        }
        Ok([Box::new(|| run(&self.plain, file)), Box::new(|| run(&self.proved, file))])
    }
}

fn command(program: &str, file: &str) -> Result<Command, String> {
    let input = File::open(file).map_err(|fault| format!("{file}: {fault}"))?;
    let mut command = Command::new(program);
    command.stdin(input);
    Ok(command)
}

fn printed(program: &str, file: &str) -> Result<Vec<u8>, String> {
    let output = command(program, file)?.output().map_err(|fault| format!("{program}: {fault}"))?;
    Ok(output.stdout)
}

fn run(program: &str, file: &str) {
    let mut command = command(program, file).expect("it was opened before");
    command.stdout(Stdio::null()).status().expect("it was run before");
}
