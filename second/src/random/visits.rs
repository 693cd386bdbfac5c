//! Visits: commands to a card that is in, powered and stays in, as a host's own programs bring them.

use super::{Maker, Rng};
use crate::reader::{self, ANSWER_BUFFER};

/// A command and the answer's data, the status word last.
pub type Exchange = (Vec<u8>, Vec<u8>);

/// So many commands to a card, each of a length that a host's stack hands on: at least five bytes and at most 260. One that
/// would take the card's last try is left out, so that the card lives.
pub fn visit(seed: u64, kind: u8, image: &[u8], count: usize) -> Result<Vec<Exchange>, u8> {
    let mut maker = Maker::of_sessions(Rng::new(seed, u64::from(kind)));
    reader::insert(&mut maker.reader.slot, kind, image)?;
    maker.reader.image = image.to_vec();
    let power_on = maker.ccid(0x62, &[]);
    answered(&mut maker, &power_on)?;
    let mut exchanges = Vec::new();
    while exchanges.len() < count {
        let command = maker.apdu();
        if !(5..=260).contains(&command.len()) {
            continue;
        }
        let (slot, image) = (maker.reader.slot.clone(), maker.reader.image.clone());
        let message = maker.ccid(0x6f, &command);
        let answer = answered(&mut maker, &message)?;
        if slot.tries > 0 && maker.reader.slot.tries == 0 {
            maker.reader.slot = slot;
            maker.reader.image = image;
        } else {
            exchanges.push((command, answer[10..].to_vec()));
        }
    }
    Ok(exchanges)
}

fn answered(maker: &mut Maker, message: &[u8]) -> Result<Vec<u8>, u8> {
    let mut answer = [0; ANSWER_BUFFER];
    let length = reader::message(&mut maker.reader.slot, &mut maker.reader.image, message, &mut answer)?;
    maker.last = message.to_vec();
    Ok(answer[..length].to_vec())
}

#[cfg(test)]
mod tests {
    use super::*;

    #[test]
    fn a_visit_is_long_and_leaves_a_try() {
        let mut image = vec![0xff; 264];
        image[260] = 0x07;
        let exchanges = visit(1, 30, &image, 1000).unwrap();
        assert_eq!(exchanges.len(), 1000);
        assert!(exchanges.iter().all(|(command, answer)| command.len() >= 5 && answer.len() >= 2));
        let ended = |word: &[u8; 2]| exchanges.iter().filter(|(_, answer)| answer.ends_with(word)).count();
        assert!(ended(&[0x90, 0x00]) > 300);
        for word in [[0x90, 0x07], [0x90, 0x06], [0x67, 0x00], [0x6b, 0x00], [0x69, 0x82]] {
            assert!(ended(&word) > 0, "{:02x?}", word);
        }
        let codes = exchanges.iter().filter(|(command, _)| command[1] == 0x20).map(|(_, answer)| &answer[..]);
        assert!(!codes.clone().any(|answer| answer == [0x90, 0x00]));
        assert!(codes.clone().count() > 20);
    }

    #[test]
    fn what_is_no_card_has_no_visit() {
        assert_eq!(visit(1, 30, &[0; 3], 5), Err(3));
    }
}
