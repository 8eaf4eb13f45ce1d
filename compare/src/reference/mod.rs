//! The receive side in plain Rust, written from docs/RULES.md alone: it shares
//! no code, no table and no constant with the proved crates.

mod boards;
mod boundary;
mod calls;
mod captures;
mod clock;
mod lines;
mod packets;
mod policies;
mod programs;
mod receiver;
mod refusals;
mod replay;
mod settings;
mod standard;
mod tables;
mod texts;
mod unread;

#[cfg(test)]
mod examples;
#[cfg(test)]
mod samples;
#[cfg(test)]
mod savefiles;

pub use boundary::make_calls;
pub use calls::answers;
pub use programs::printed;
pub use replay::replay;
