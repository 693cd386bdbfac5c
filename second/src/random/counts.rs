//! The two counts of a slot record: those of an image, images with a given number of protected
//! bytes, and stored counts that are off.

use super::Maker;
use crate::case::{raw, Case};
use crate::count::card;
use crate::reader::Chip;
use crate::step::Reader;

/// A way in which stored counts are off: what is added to tries left and to the number of protected
/// bytes, one of each list; 0 less one is the largest number.
pub struct CountFault {
    pub name: &'static str,
    tries: &'static [u8],
    protected: &'static [u16],
}

/// Each is tried on its own, on every kind and without a card.
#[rustfmt::skip]
pub static COUNT_FAULTS: [CountFault; 10] = [
    CountFault { name: "tries one more",                     tries: &[1],    protected: &[0] },
    CountFault { name: "tries one less",                     tries: &[0xff], protected: &[0] },
    CountFault { name: "a high bit of tries",                tries: &[0x10, 0x20, 0x40, 0x80], protected: &[0] },
    CountFault { name: "protected one more",                 tries: &[0],    protected: &[1] },
    CountFault { name: "protected one less",                 tries: &[0],    protected: &[0xffff] },
    CountFault { name: "the high byte of protected",         tries: &[0],    protected: &[0x100, 0x200, 0x8000, 0xff00] },
    CountFault { name: "both one more",                      tries: &[1],    protected: &[1] },
    CountFault { name: "both one less",                      tries: &[0xff], protected: &[0xffff] },
    CountFault { name: "tries one more, protected one less", tries: &[1],    protected: &[0xffff] },
    CountFault { name: "tries one less, protected one more", tries: &[0xff], protected: &[1] },
];

/// The most bytes that may be protected: all that have a bit, but for a counter in the memory.
pub fn most_protected(chip: &Chip) -> usize {
    chip.protectable - usize::from(chip.counter < chip.protectable)
}

/// Numbers of protected bytes: none, one, those about each border of the low byte, all but one, all.
pub fn borders(chip: &Chip) -> Vec<usize> {
    let most = most_protected(chip);
    if most == 0 {
        return vec![0];
    }
    let about = (256..=768).step_by(256).flat_map(|border| [border - 1, border, border + 1]);
    [0, 1].into_iter().chain(about.filter(|&count| count < most - 1)).chain([most - 1, most]).collect()
}

/// Tries left and number of protected bytes, counted in the bytes that hold them: the ones of the
/// counter and the zeros of the protection bytes. Both are 0 where there is no card.
pub(super) fn counts(kind: u8, image: &[u8]) -> (u8, u16) {
    let chip = match Chip::of(kind) {
        Some(chip) if chip.has_bits() => chip,
        _ => return (0, 0),
    };
    let bits = &image[chip.protection..][..chip.protectable / 8];
    let ones = |byte: &u8| (0..8).filter(|bit| byte >> bit & 1 == 1).count() as u8;
    (image.get(chip.counter).map_or(0, ones), bits.iter().map(|byte| byte.count_zeros() as u16).sum())
}

impl Maker {
    /// Gives the slot record the counts of the image.
    pub(super) fn store_counts(&mut self) {
        let Reader { slot, image } = &mut self.reader;
        (slot.tries, slot.protected) = counts(slot.kind, image);
    }

    /// Protects so many bytes of an image and no other: a run of them, which may go on at the start,
    /// or any.
    pub(super) fn protect_bytes(&mut self, chip: &Chip, image: &mut [u8], count: usize) {
        let rng = &mut self.rng;
        image[chip.protection..][..chip.protectable / 8].fill(0xff);
        let mut places: Vec<usize> = (0..chip.protectable).filter(|&k| k != chip.counter).collect();
        if rng.chance(50) {
            places.rotate_left(rng.below(chip.protectable - 1));
        } else {
            for k in 0..count {
                let other = k + rng.below(places.len() - k);
                places.swap(k, other);
            }
        }
        places[..count].iter().for_each(|&k| chip.protect(image, k));
    }

    /// One of the numbers at the borders, and more often the one that lacks the last.
    pub(super) fn border(&mut self, chip: &Chip) -> usize {
        if self.rng.chance(10) {
            return most_protected(chip) - 1;
        }
        self.rng.pick(&borders(chip))
    }

    /// Makes the case one of a slot whose counts are off: on which kind, and how.
    pub(super) fn unsound_counts(&mut self, case: &mut Case) -> String {
        let fault = &COUNT_FAULTS[self.rng.below(COUNT_FAULTS.len())];
        self.each_state(case);
        if let Some(chip) = self.chip() {
            self.counts_above_0(chip);
            case.image = self.reader.image.clone();
        }
        let slot = &mut self.reader.slot;
        slot.tries = slot.tries.wrapping_add(self.rng.pick(fault.tries));
        slot.protected = slot.protected.wrapping_add(self.rng.pick(fault.protected));
        case.record = raw(slot);
        format!("{}: {}", card(slot.kind), fault.name)
    }

    /// Makes counts that are 0 another number, where the chip has it, so that there is one less.
    fn counts_above_0(&mut self, chip: &Chip) {
        let Reader { slot, image } = &mut self.reader;
        if chip.has_code() && slot.tries == 0 {
            image[chip.counter] = chip.full;
        }
        if chip.has_bits() && slot.protected == 0 {
            chip.protect(image, self.rng.below(32));
        }
        self.store_counts();
    }
}

#[cfg(test)]
mod tests {
    use super::*;
    use crate::random::Rng;
    use crate::reader::CHIPS;

    /// What is counted here is what the rules count.
    #[test]
    fn both_count_alike() {
        let mut maker = Maker::of_cases(Rng::new(1, 1));
        for _ in 0..2000 {
            let chip = maker.any_chip();
            let image = maker.image(chip);
            assert_eq!(counts(chip.kind, &image), (chip.tries(&image), chip.protected_bytes(&image)));
        }
        assert_eq!(counts(0, &[0x00; 264]), (0, 0));
    }

    #[test]
    fn so_many_bytes_are_protected() {
        let mut maker = Maker::of_cases(Rng::new(1, 1));
        for chip in CHIPS.iter().filter(|chip| chip.has_bits()) {
            for count in borders(chip).into_iter().cycle().take(100) {
                let mut image = maker.image(chip);
                maker.protect_bytes(chip, &mut image, count);
                assert_eq!(usize::from(chip.protected_bytes(&image)), count);
                assert!(!chip.protected(&image, chip.counter));
            }
        }
    }
}
