//! Lists mutants of the proved code: mutants SEED EACH FILE.. prints so many small edits of each function, each of one line
//! (or of two that follow each other) in its body, as file, line, how many lines, function, kind and the new text, between
//! tabs. The seed and the function's own text choose them, so that a change elsewhere does not exchange them.

use std::collections::{HashMap, HashSet};

/// One edit: so many lines from a line on become the new text, or nothing.
struct Mutant {
    file: String,
    line: usize,
    lines: usize,
    function: String,
    kind: &'static str,
    text: String,
    rank: u64,
}

/// The body of a function: its lines, and the types of its parameters by name.
struct Body<'a> {
    name: String,
    first: usize,
    lines: Vec<&'a str>,
    types: HashMap<String, String>,
}

/// A number that looks like chance, the same for the same seed and words (FNV-1a, its bits mixed once more).
fn chance(seed: u64, words: &[&str]) -> u64 {
    let mut hash = 0xcbf2_9ce4_8422_2325 ^ seed.wrapping_mul(0x9e37_79b9_7f4a_7c15);
    for byte in words.iter().flat_map(|word| word.bytes().chain([0])) {
        hash = (hash ^ u64::from(byte)).wrapping_mul(0x0100_0000_01b3);
    }
    hash = (hash ^ (hash >> 31)).wrapping_mul(0x94d0_49bb_1331_11eb);
    hash ^ (hash >> 29)
}

fn main() {
    let arguments: Vec<String> = std::env::args().skip(1).collect();
    let [seed, each, files @ ..] = &arguments[..] else {
        eprintln!("usage: mutants SEED EACH FILE..");
        std::process::exit(1);
    };
    let seed = seed.parse().expect("a number as seed");
    let each = each.parse().expect("a number of mutants of each function");
    for file in files {
        let text = std::fs::read_to_string(file).unwrap_or_else(|fault| panic!("{file}: {fault}"));
        for body in bodies(&text) {
            let mut edits = edits(file, &body, seed);
            edits.sort_by_key(|edit| edit.rank);
            for Mutant { file, line, lines, function, kind, text, .. } in edits.iter().take(each) {
                println!("{file}\t{line}\t{lines}\t{function}\t{kind}\t{text}");
            }
        }
    }
}

fn indent(line: &str) -> usize {
    line.len() - line.trim_start().len()
}

/// The functions of a file. A body stands between two braces at the indent of its `fn`.
fn bodies(text: &str) -> Vec<Body<'_>> {
    let lines: Vec<&str> = text.lines().collect();
    let mut found = Vec::new();
    for (at, line) in lines.iter().enumerate() {
        let start = line.trim_start();
        let Some(rest) = ["fn ", "pub fn ", "pub extern \"C\" fn "].iter().find_map(|word| start.strip_prefix(word))
        else {
            continue;
        };
        let name: String = rest.chars().take_while(|c| c.is_alphanumeric() || *c == '_').collect();
        let brace = format!("{}{{", " ".repeat(indent(line)));
        let end = format!("{}}}", " ".repeat(indent(line)));
        let Some(open) = (at..lines.len()).find(|&k| lines[k] == brace || lines[k].ends_with(" {")) else { continue };
        let Some(close) = (open..lines.len()).find(|&k| lines[k] == end) else { continue };
        let of_contract =
            |line: &str| ["requires", "ensures", "ghost"].iter().any(|word| line.trim_start().starts_with(word));
        let signature =
            lines[at..=open].iter().take_while(|line| !of_contract(line)).copied().collect::<Vec<_>>().join(" ");
        found.push(Body { name, first: open + 1, lines: lines[open + 1..close].to_vec(), types: types(&signature) });
    }
    found
}

fn types(signature: &str) -> HashMap<String, String> {
    let inside = signature.split_once('(').map_or("", |(_, rest)| rest);
    let inside = inside.rsplit_once(')').map_or(inside, |(inside, _)| inside);
    let pairs = inside.split(',').filter_map(|part| part.split_once(": "));
    pairs.map(|(name, of)| (name.trim().to_string(), of.trim().replace("mut ", ""))).collect()
}

/// Where the names and numbers of a line stand.
fn words(line: &str) -> Vec<(usize, &str)> {
    let mut found = Vec::new();
    let mut start = None;
    for (at, c) in line.char_indices().chain([(line.len(), ' ')]) {
        let part = c.is_alphanumeric() || c == '_';
        match (part, start) {
            (true, None) => start = Some(at),
            (false, Some(from)) => {
                found.push((from, &line[from..at]));
                start = None;
            }
            _ => {}
        }
    }
    found
}

fn edits(file: &str, body: &Body, seed: u64) -> Vec<Mutant> {
    const OPERATORS: [(&str, &str); 8] = [
        (" < ", " <= "),
        (" <= ", " < "),
        (" == ", " != "),
        (" != ", " == "),
        (" + ", " - "),
        (" - ", " + "),
        (" & ", " | "),
        (" | ", " & "),
    ];
    let mut all = Vec::new();
    for (at, line) in body.lines.iter().enumerate() {
        let mut add = |lines, kind, text: String| {
            let rank = chance(seed, &[file, &body.name, &at.to_string(), kind, &text]);
            let (file, function) = (file.to_string(), body.name.clone());
            all.push(Mutant { file, line: body.first + at + 1, lines, function, kind, text, rank });
        };
        if line.trim_start().starts_with("//") {
            continue;
        }
        for (old, new) in OPERATORS {
            for (from, _) in line.match_indices(old) {
                add(1, "operator", format!("{}{new}{}", &line[..from], &line[from + old.len()..]));
            }
        }
        for (from, word) in words(line) {
            if let Ok(number) = word.parse::<u64>() {
                add(1, "constant", format!("{}{}{}", &line[..from], number + 1, &line[from + word.len()..]));
            }
            let Some(of) = body.types.get(word) else { continue };
            let mut others: Vec<&String> =
                body.types.iter().filter(|(name, other)| *other == of && *name != word).map(|(name, _)| name).collect();
            others.sort();
            if !others.is_empty() {
                let other = others[(chance(seed, &[file, &body.name, line, word]) % others.len() as u64) as usize];
                add(1, "operand", format!("{}{other}{}", &line[..from], &line[from + word.len()..]));
            }
        }
        for pair in words(line).windows(2) {
            let [(from, one), (then, two)] = [pair[0], pair[1]];
            let alone = line[..from].ends_with(['(', ' ']) && line[then + two.len()..].starts_with([',', ')']);
            let alike = body.types.contains_key(one) && body.types.get(one) == body.types.get(two) && one != two;
            if &line[from + one.len()..then] == ", " && alone && alike {
                add(1, "argument", format!("{}{two}, {one}{}", &line[..from], &line[then + two.len()..]));
            }
        }
        if let Some(next) = body.lines.get(at + 1) {
            let [one, two] = [line, next].map(|line| line.trim().trim_end_matches(','));
            if body.types.contains_key(one) && body.types.get(one) == body.types.get(two) && one != two {
                add(2, "argument", format!("{next}\u{1f}{line}"));
            }
        }
        let statement = line.trim();
        let first: HashSet<&str> = ["let", "return", "break", "continue", "for", "if"].into();
        if statement.ends_with(';') && words(statement).first().is_some_and(|(_, word)| !first.contains(word)) {
            add(1, "dropped", String::new());
        }
    }
    all
}
