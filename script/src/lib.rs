//! The script tool: the language of a script, a conversation with the session program or the trial
//! program, and records and answers in words. docs/SCRIPTS.md has the language.

pub mod capture;
pub mod cards;
pub mod follow;
pub mod hex;
pub mod parameters;
pub mod parse;
pub mod talk;
pub mod tell;
pub mod trial;
