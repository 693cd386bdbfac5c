//! The second program: the rules of the reader written again from the paper, the programs over
//! them, and random sessions and cases to compare with another program of the same rules.

pub mod case;
pub mod count;
pub mod parameters;
pub mod program;
pub mod random;
pub mod reader;
pub mod record;
pub mod shrink;
pub mod step;
