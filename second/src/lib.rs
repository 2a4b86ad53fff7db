//! A second, independent forecaster: documents 01 and 02 written down once more, in plain Rust and by other ways,
//! so that the proved programs can be compared with it. Each module is one small part.

pub mod damage;
pub mod decide;
mod distance_lines;
pub mod forecast;
pub mod host;
pub mod made;
pub mod policy;
pub mod print;
pub mod random;
pub mod reader;
pub mod record;
mod route_line;
pub mod search;
pub mod seed;
pub mod show;
pub mod snapshot;
pub mod stable;
pub mod tables;
pub mod text;
mod words;
pub mod writer;
