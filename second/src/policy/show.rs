//! From a policy's bytes back to the text notation. Whatever the bytes, `make` of the text shown gives them again.

use crate::policy::record::{body_length, kind_name};
use crate::policy::{reader, Fits, Policy, Session};
use crate::print::dotted;
use crate::record::cut_by;
use crate::show::refused;

pub fn show(bytes: &[u8]) -> String {
    match reader::read(bytes) {
        Ok(policy) => sound(&policy, bytes),
        Err(refusal) => refused(&refusal, bytes, body_length, kind_name),
    }
}

fn sound(policy: &Policy, bytes: &[u8]) -> String {
    let clauses: usize = policy.sessions.iter().map(|session| session.clauses.len()).sum();
    let records = cut_by(bytes, body_length).len() - 1;
    let mut text = format!("# Sessions: {}, clauses: {clauses}, ", policy.sessions.len());
    text += &format!("records before the end: {records}, bytes: {}.\n", bytes.len());
    for session in &policy.sessions {
        text += &session_lines(session);
    }
    if policy.sessions.is_empty() {
        text += "\nend 0\n";
    }
    text
}

fn session_lines(session: &Session) -> String {
    let mut text = format!("\nsession {} peer {}\n", session.router, dotted(session.peer));
    if session.med_zero {
        text += "med 0\n";
    }
    for clause in &session.clauses {
        let fits = match clause.fits {
            Fits::Prefix { address, length } => format!("prefix {}/{length}", dotted(address)),
            Fits::Direct { neighbour_as } => format!("as {neighbour_as}"),
            Fits::All => "all".to_string(),
        };
        text += &format!("{fits} preference {}\n", clause.preference);
    }
    text
}
