//! The commands. Each reads standard input where it needs bytes or text, and writes to standard output.

use second::made::{Fault, Made};
use second::{damage, host, policy, print, random, reader, show, text, writer};
use std::io::{self, Read, Write};
use std::process::ExitCode;

const USAGE: &str = "usage:
  second forecast               snapshot in, printed forecast out
  second make [OPTION..]        text in, snapshot out
      --unjudged                also one that would be refused
      --sheet                   what the text leaves out is as in document 01's 'Sums on paper', for test cases
  second show                   snapshot in, text out
  second host PREFIX LENGTH     snapshot in; what the host call returns and leaves in an area of LENGTH bytes a5
  second damage SEED            snapshot in, damaged copy out
  second random SEED KIND       a valid snapshot out
  second apply SNAPSHOT POLICY  two files in, the snapshot with the policy applied out
  second make-policy [--unjudged]
                                text in, policy out; also one that would be refused
  second show-policy            policy in, text out
  second damage-policy SEED     policy in, damaged copy out
  second random-policy SEED KIND
                                snapshot in, a valid policy for it out";

/// What each byte of the host command's area holds before the call.
const BEFORE: u8 = 0xa5;

fn main() -> ExitCode {
    let arguments: Vec<String> = std::env::args().skip(1).collect();
    let words: Vec<&str> = arguments.iter().map(String::as_str).collect();
    match run(&words) {
        Ok(output) => match io::stdout().write_all(&output) {
            Ok(()) => ExitCode::SUCCESS,
            Err(fault) => complain(&fault.to_string()),
        },
        Err(fault) => complain(&fault),
    }
}

fn complain(fault: &str) -> ExitCode {
    eprintln!("{fault}");
    ExitCode::FAILURE
}

fn run(words: &[&str]) -> Result<Vec<u8>, String> {
    match *words {
        ["forecast"] => Ok(print::printed(&input()?).into_bytes()),
        ["make", ref options @ ..] => made(options),
        ["show"] => Ok(show::show(&input()?).into_bytes()),
        ["host", prefix, length] => hosted(number(prefix)?, number(length)?),
        ["damage", seed] => Ok(damage::damage(&input()?, number(seed)?)),
        ["random", seed, kind] => randomly(number(seed)?, kind),
        ["apply", snapshot, policy] => applied(&file(snapshot)?, &file(policy)?),
        ["make-policy", ref options @ ..] => made_policy(options),
        ["show-policy"] => Ok(policy::show::show(&input()?).into_bytes()),
        ["damage-policy", seed] => Ok(damage::damage_policy(&input()?, number(seed)?)),
        ["random-policy", seed, kind] => random_policy(number(seed)?, kind),
        _ => Err(USAGE.to_string()),
    }
}

fn input() -> Result<Vec<u8>, String> {
    let mut bytes = Vec::new();
    io::stdin().read_to_end(&mut bytes).map_err(|fault| fault.to_string())?;
    Ok(bytes)
}

fn input_text() -> Result<String, String> {
    String::from_utf8(input()?).map_err(|fault| fault.to_string())
}

fn file(name: &str) -> Result<Vec<u8>, String> {
    std::fs::read(name).map_err(|fault| format!("{name}: {fault}"))
}

fn number(word: &str) -> Result<u64, String> {
    word.parse().map_err(|_| format!("'{word}' is not a number"))
}

fn made(options: &[&str]) -> Result<Vec<u8>, String> {
    only(options, &["--unjudged", "--sheet"])?;
    let make = if options.contains(&"--sheet") { text::make_from_sheet } else { text::make };
    finished(make(&input_text()?), options)
}

fn made_policy(options: &[&str]) -> Result<Vec<u8>, String> {
    only(options, &["--unjudged"])?;
    finished(policy::text::make(&input_text()?), options)
}

fn only(options: &[&str], known: &[&str]) -> Result<(), String> {
    match options.iter().all(|option| known.contains(option)) {
        true => Ok(()),
        false => Err(USAGE.to_string()),
    }
}

/// The bytes made of a text, judged unless the options say otherwise.
fn finished(made: Result<Made, Fault>, options: &[&str]) -> Result<Vec<u8>, String> {
    let bytes = made.and_then(|made| match options.contains(&"--unjudged") {
        true => Ok(made.bytes),
        false => made.judged(),
    });
    bytes.map_err(|fault| fault.to_string())
}

fn hosted(prefix: u64, length: u64) -> Result<Vec<u8>, String> {
    let mut area = vec![BEFORE; length as usize];
    let returned = host::host(&input()?, prefix, &mut area);
    let hex: String = area.iter().map(|byte| format!("{byte:02x}")).collect();
    Ok(format!("{returned}\n{hex}\n").into_bytes())
}

fn randomly(seed: u64, kind: &str) -> Result<Vec<u8>, String> {
    let known = || format!("{}, and each of these with 'mixed-' before it", kinds(&random::KINDS));
    let snapshot = random::random(seed, kind).ok_or_else(known)?;
    Ok(writer::write(&snapshot))
}

fn random_policy(seed: u64, kind: &str) -> Result<Vec<u8>, String> {
    let snapshot = reader::read(&input()?).map_err(|refusal| refusal.to_string())?;
    let policy = policy::random::random(seed, kind, &snapshot).ok_or(kinds(&policy::random::KINDS))?;
    Ok(policy::record::write(&policy))
}

fn kinds(names: &[&str]) -> String {
    format!("the kinds are {}", names.join(", "))
}

fn applied(snapshot: &[u8], policy: &[u8]) -> Result<Vec<u8>, String> {
    policy::apply::rewritten(snapshot, policy).map_err(|refused| refused.to_string())
}
