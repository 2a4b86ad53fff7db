//! The proved programs' algorithms and checks in plain, safe Rust: what the benchmarks compare it with.

mod choose;
mod contest;
mod cursor;
mod forecast;
mod judge;
mod page;
mod policy;
mod read;
mod tables;
mod write;

pub use contest::Contest;
pub use forecast::{forecast, Outlook, NONE};
pub use page::page;
pub use policy::policy;
pub use read::read;
pub use tables::{Columns, Counts, Lent, Refusal, Tables, LONGEST};
pub use write::write;
