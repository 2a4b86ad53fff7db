//! One question put to the host call and to the second program, and a tally of what was answered.

use second::host::host;
use second::reader::read;
use std::io::Write;

/// Bytes behind a lent area that are watched too.
const BEHIND: usize = 32;

/// The shortest area that may be lent.
pub const AREA: usize = 256;

extern "C" {
    fn barrierose_forecast(
        snapshot: *const u8,
        snapshot_len: usize,
        prefix: u32,
        area: *mut u8,
        area_len: usize,
    ) -> u32;
}

fn call(snapshot: &[u8], prefix: u32, area: &mut [u8]) -> u32 {
    // SAFETY: both are lent for the time of the call, with their lengths.
    unsafe { barrierose_forecast(snapshot.as_ptr(), snapshot.len(), prefix, area.as_mut_ptr(), area.len()) }
}

/// How often each number was returned.
pub struct Tally {
    returned: [usize; 113],
    inputs: usize,
}

impl Default for Tally {
    fn default() -> Self {
        Tally { returned: [0; 113], inputs: 0 }
    }
}

impl Tally {
    /// Lends both sides an area of `room` bytes and wants the same number and the same bytes, none of them changed
    /// by a refusal.
    pub fn ask(&mut self, what: &str, snapshot: &[u8], prefix: u32, room: usize) {
        let before: Vec<u8> = (0..room + BEHIND).map(|place| (29 * place + self.inputs) as u8).collect();
        let (mut wanted, mut given) = (before.clone(), before.clone());
        let wanted_number = host(snapshot, u64::from(prefix), &mut wanted[..room]);
        let number = call(snapshot, prefix, &mut given[..room]);
        assert_eq!(number, wanted_number, "{what}, prefix {prefix}, area of {room}");
        assert!(given == wanted, "{what}, prefix {prefix}, area of {room}: other bytes in the area");
        assert!(number <= 100 || given == before, "{what}, prefix {prefix}: a refusal has changed the area");
        self.returned[number as usize] += 1;
    }

    /// Asks for every prefix that the second program reads, for one that is not there, and in an area too short.
    pub fn ask_all(&mut self, what: &str, snapshot: &[u8]) {
        self.inputs += 1;
        let prefixes = read(snapshot).map_or(0, |read| read.prefixes.len() as u32);
        for prefix in 0..prefixes {
            self.ask(what, snapshot, prefix, AREA + self.inputs % 3);
        }
        let beyond = [prefixes, prefixes + 1, 256, 65_536, 1 << 31][self.inputs % 5];
        self.ask(what, snapshot, beyond, AREA);
        self.ask(what, snapshot, 0, AREA - 1);
    }

    pub fn inputs(&self) -> usize {
        self.inputs
    }

    pub fn settled(&self) -> usize {
        self.returned[0]
    }

    pub fn open(&self) -> usize {
        self.returned[1..=64].iter().sum()
    }

    /// How often this refusal was given.
    pub fn refused(&self, number: usize) -> usize {
        self.returned[100 + number]
    }

    /// The refusals of reading together.
    pub fn refusals(&self) -> usize {
        (2..=10).map(|number| self.refused(number)).sum()
    }

    /// Says what was asked; past the test's own capture of what it prints, so that it is always seen.
    pub fn say(&self, what: &str) {
        let (inputs, settled, open, refused) = (self.inputs, self.settled(), self.open(), self.refusals());
        let said = format!("{what}: {inputs} inputs; {settled} settled, {open} open, {refused} refused\n");
        std::io::stderr().write_all(said.as_bytes()).expect("standard error is open");
    }
}
