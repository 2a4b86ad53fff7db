//! An import policy as the rest of this program sees it, and its limits: document 02, request a.

pub mod apply;
pub mod random;
pub mod reader;
pub mod record;
pub mod show;
pub mod text;

/// The most sessions, and the most clauses of one session.
pub const SESSIONS: usize = 64;
pub const CLAUSES: usize = 32;

/// The largest AS that a clause may name.
pub const LAST_CLAUSE_AS: u32 = u32::MAX - 1;

/// The preference of a route that no clause fits.
pub const USUAL: u32 = 100;

#[derive(Clone, Debug, Default, PartialEq, Eq)]
pub struct Policy {
    pub sessions: Vec<Session>,
}

#[derive(Clone, Debug, PartialEq, Eq)]
pub struct Session {
    pub router: u8,
    pub peer: u32,
    /// Whether the MED of all its routes becomes a present 0.
    pub med_zero: bool,
    pub clauses: Vec<Clause>,
}

#[derive(Clone, Copy, Debug, PartialEq, Eq)]
pub struct Clause {
    pub fits: Fits,
    pub preference: u32,
}

/// Which routes of its session a clause fits: those of exactly this prefix, those with a path of length 1 from this AS,
/// or all.
#[derive(Clone, Copy, Debug, PartialEq, Eq)]
pub enum Fits {
    Prefix { address: u32, length: u8 },
    Direct { neighbour_as: u32 },
    All,
}
