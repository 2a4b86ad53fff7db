//! A snapshot and a policy put to the host call and to the second program, and a tally of what was answered.

use second::policy::{reader, Fits, Policy};
use second::reader::read;
use second::snapshot::{Prefix, Route};
use second::{host, policy, random, writer};
use std::io::Write;

/// Bytes behind a lent output that are watched too.
const BEHIND: usize = 32;

extern "C" {
    fn barrierose_policy(
        snapshot: *const u8,
        snapshot_len: usize,
        policy: *const u8,
        policy_len: usize,
        out: *mut u8,
        out_len: usize,
    ) -> u32;
}

fn call(snapshot: &[u8], policy: &[u8], out: &mut [u8]) -> u32 {
    let (lent, lent_policy) = ((snapshot.as_ptr(), snapshot.len()), (policy.as_ptr(), policy.len()));
    // SAFETY: all three are lent for the time of the call, with their lengths.
    unsafe { barrierose_policy(lent.0, lent.1, lent_policy.0, lent_policy.1, out.as_mut_ptr(), out.len()) }
}

/// A random snapshot with every other path direct, and a policy for it: small ones in turn, large ones now and then;
/// half of all with ASes of both lengths.
pub fn made(seed: u64) -> (String, Vec<u8>, Vec<u8>) {
    let (kind, policy_kind) = match seed % 40 {
        0 => ("sessions", "limits"),
        1 => ("sessions", "mixed"),
        2 => ("limits", "mixed"),
        3 => ("typical", "typical"),
        4 => ("small", "limits"),
        _ => (["small", "open"][seed as usize % 2], "mixed"),
    };
    let kind = format!("{}{kind}", ["", "mixed-"][(seed / 2 + seed / 40) as usize % 2]);
    let mut snapshot = random::random(seed, &kind).expect("a kind");
    let routes = snapshot.prefixes.iter_mut().flat_map(|prefix| &mut prefix.routes);
    routes.step_by(2).for_each(|route| route.path = 1);
    let policy = policy::random::random(seed, policy_kind, &snapshot).expect("a kind");
    let what = format!("random-policy {seed} {policy_kind} of random {seed} {kind}");
    (what, writer::write(&snapshot), policy::record::write(&policy))
}

/// How often each number was returned, and how many of the routes got their preference how.
#[derive(Default)]
pub struct Tally {
    returned: [usize; 11],
    returned_of_policy: [usize; 11],
    pub asked: usize,
    pub by_prefix: usize,
    pub by_as: usize,
    pub by_all: usize,
    pub unfit: usize,
    pub of_no_session: usize,
    pub new_med: usize,
}

impl Tally {
    /// Lends both sides an output of `room` bytes and wants the same number and the same bytes, none of them changed
    /// by a refusal.
    pub fn ask(&mut self, what: &str, snapshot: &[u8], policy: &[u8], room: usize) {
        let before: Vec<u8> = (0..room + BEHIND).map(|place| (29 * place + self.asked) as u8).collect();
        let (mut wanted, mut given) = (before.clone(), before.clone());
        let wanted_number = host::policy(snapshot, policy, &mut wanted[..room]);
        let number = call(snapshot, policy, &mut given[..room]);
        assert_eq!(number, wanted_number, "{what}, output of {room}");
        assert!(given == wanted, "{what}, output of {room}: other bytes in the output");
        assert!(number == 0 || given == before, "{what}, output of {room}: a refusal has changed the output");
        self.asked += 1;
        match number {
            0 => self.note_routes(snapshot, policy),
            101..=110 => self.returned[number as usize - 100] += 1,
            _ => self.returned_of_policy[number as usize - 200] += 1,
        }
    }

    fn note_routes(&mut self, snapshot: &[u8], policy: &[u8]) {
        self.returned[0] += 1;
        let (snapshot, policy) = (read(snapshot).expect("it was read"), reader::read(policy).expect("it was read"));
        for prefix in &snapshot.prefixes {
            prefix.routes.iter().for_each(|route| self.note_route(route, prefix, &policy));
        }
    }

    fn note_route(&mut self, route: &Route, prefix: &Prefix, policy: &Policy) {
        let Some(session) = policy.session(route) else {
            self.of_no_session += 1;
            return;
        };
        self.new_med += usize::from(session.med_zero && (route.mark, route.med) != (1, 0));
        match session.deciding(route, prefix).map(|clause| clause.fits) {
            Some(Fits::Prefix { .. }) => self.by_prefix += 1,
            Some(Fits::Direct { .. }) => self.by_as += 1,
            Some(Fits::All) => self.by_all += 1,
            None => self.unfit += 1,
        }
    }

    pub fn applied(&self) -> usize {
        self.returned[0]
    }

    /// How often ROOM, or this refusal of the snapshot, was given.
    pub fn refused(&self, number: usize) -> usize {
        self.returned[number]
    }

    /// How often this refusal of the policy was given.
    pub fn refused_policy(&self, number: usize) -> usize {
        self.returned_of_policy[number]
    }

    /// The refusals of a snapshot and of a policy.
    pub fn refusals(&self) -> [usize; 2] {
        [&self.returned[2..], &self.returned_of_policy].map(|numbers| numbers.iter().sum())
    }

    /// Says what was asked; past the test's own capture of what it prints, so that it is always seen.
    pub fn say(&self, what: &str) {
        let (asked, applied, [snapshots, policies]) = (self.asked, self.applied(), self.refusals());
        let said = format!(
            "{what}: {asked} asked; {applied} applied, {snapshots} snapshots and {policies} policies refused\n"
        );
        std::io::stderr().write_all(said.as_bytes()).expect("standard error is open");
    }
}
