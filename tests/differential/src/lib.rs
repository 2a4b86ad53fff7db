//! The proved calls asked beside the second program, and answers compared: host calls, and calls over lent tables.

pub mod host;
pub mod policy;
pub mod spoil;
pub mod tables;
