//! The mapping between Internet and X.400 addresses under a table, dates, header mailboxes and the restricted encoding of local parts, in
//! ordinary Rust and unproved: a second opinion.

pub mod address;
pub mod chars;
pub mod dates;
mod index;
pub mod levels;
pub mod list;
pub mod mailbox;
pub mod mapping;
mod names;
pub mod record;
pub mod restricted;
pub mod run;
pub mod scratch;
pub mod table;
pub mod text;
