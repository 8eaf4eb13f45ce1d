//! The proved receiver and replay beside a second writing of the same rules,
//! so that the two can be compared call by call and byte by byte.

pub mod captures;
mod differences;
pub mod hosts;
pub mod lent;
pub mod lists;
pub mod programs;
pub mod proved;
pub mod random;
pub mod reference;
pub mod replays;
pub mod samples;
pub mod terms;
pub mod texts;
pub mod transcripts;
