//! The host's own stack over the device: what starts it, talks to it and holds it to the second program.

pub mod card;
pub mod device;
pub mod dissect;
pub mod line;
pub mod second;
pub mod stack;
