//! Random sessions and trial cases from a seed, weighted so that they get far.

mod cards;
mod cases;
mod commands;
mod counts;
mod messages;
mod pages;
mod parameters;
mod sessions;
mod visits;

pub use cards::WRONG_LENGTHS;
pub use cases::{cases, Part, CASE_ENDINGS, LARGE_FAULTS, RECORD_FAULTS};
pub use counts::{borders, most_protected, COUNT_FAULTS};
pub use pages::{bad_flag, bad_flags};
pub use parameters::{DI, FI, SET_FAULTS};
pub use sessions::{sessions, ENDINGS, LARGE_INSERTS};
pub use visits::{visit, Exchange};

use crate::case::LONGEST_IMAGE;
use crate::reader::{Chip, CHIPS};
use crate::step::{Reader, LONGEST_BODY};

/// A splitmix64 generator.
pub struct Rng(u64);

impl Rng {
    /// The generator of one stream: the streams of a seed have nothing in common.
    pub fn new(seed: u64, stream: u64) -> Rng {
        let mut rng = Rng(seed);
        let start = rng.next();
        Rng(start ^ stream.wrapping_mul(0xd1b5_4a32_d192_ed03))
    }

    fn next(&mut self) -> u64 {
        self.0 = self.0.wrapping_add(0x9e37_79b9_7f4a_7c15);
        let mut z = self.0;
        z = (z ^ (z >> 30)).wrapping_mul(0xbf58_476d_1ce4_e5b9);
        z = (z ^ (z >> 27)).wrapping_mul(0x94d0_49bb_1331_11eb);
        z ^ (z >> 31)
    }

    /// A number under `end`, which is not 0.
    pub fn below(&mut self, end: usize) -> usize {
        ((u128::from(self.next()) * end as u128) >> 64) as usize
    }

    fn byte(&mut self) -> u8 {
        self.below(256) as u8
    }

    fn bytes(&mut self, count: usize) -> Vec<u8> {
        let mut bytes = vec![0; count];
        for eight in bytes.chunks_mut(8) {
            eight.copy_from_slice(&self.next().to_le_bytes()[..eight.len()]);
        }
        bytes
    }

    fn chance(&mut self, percent: usize) -> bool {
        self.below(100) < percent
    }

    fn pick<T: Copy>(&mut self, from: &[T]) -> T {
        from[self.below(from.len())]
    }

    /// One of the values, each as often as its weight says.
    fn weighed<T: Copy>(&mut self, from: &[(usize, T)]) -> T {
        let total = from.iter().map(|(weight, _)| weight).sum();
        let mut at = self.below(total);
        for &(weight, value) in from {
            if at < weight {
                return value;
            }
            at -= weight;
        }
        from[0].1
    }
}

/// The parts of one run of both programs, and the lines that the rules give for them.
pub struct Stream<P> {
    pub parts: Vec<P>,
    pub lines: Vec<String>,
    /// Where a session begins among the parts; its slot is empty then.
    pub starts: Vec<usize>,
}

/// Makes cards and messages. It runs the rules along, so that it knows the card's code, type, page
/// and protection while it makes the next message.
struct Maker {
    rng: Rng,
    reader: Reader,
    /// The last bSeq and the last message.
    seq: u8,
    last: Vec<u8>,
    /// The kinds that go in, each as often as its weight says, and the longest image that can be told.
    kinds: &'static [(usize, u8)],
    longest: usize,
}

/// How often a kind is taken: those with protection bits most, the largest images least.
#[rustfmt::skip]
const IN_SESSIONS: [(usize, u8); 13] = [
    (40, 30), (32, 20), (26, 31), (26, 21), (6, 1), (6, 2), (6, 3), (6, 4), (6, 5), (6, 6), (6, 7), (4, 8), (3, 9),
];
#[rustfmt::skip]
const IN_CASES: [(usize, u8); 15] = [
    (40, 30), (32, 20), (26, 31), (26, 21), (6, 1), (6, 2), (6, 3), (6, 4), (6, 5), (6, 6), (6, 7), (4, 8), (3, 9),
    (3, 10), (3, 11),
];

impl Maker {
    fn of_sessions(rng: Rng) -> Maker {
        let (reader, kinds, longest) = (Reader::empty(), &IN_SESSIONS, LONGEST_BODY - 1);
        Maker { rng, reader, seq: 0, last: Vec::new(), kinds, longest }
    }

    fn of_cases(rng: Rng) -> Maker {
        Maker { kinds: &IN_CASES, longest: LONGEST_IMAGE, ..Maker::of_sessions(rng) }
    }

    /// The card in the slot.
    fn chip(&self) -> Option<&'static Chip> {
        Chip::of(self.reader.slot.kind)
    }

    fn any_chip(&mut self) -> &'static Chip {
        chip_of(self.rng.weighed(self.kinds))
    }
}

/// The chip of a kind that there is.
fn chip_of(kind: u8) -> &'static Chip {
    Chip::of(kind).unwrap_or(&CHIPS[0])
}
