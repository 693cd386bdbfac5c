//! The second program beside the device's trace: every answer, every field of the slot record and every byte of the card.

use second::case;
use second::reader::{self, Slot, ANSWER_BUFFER};

/// How many lines of each form were held to the second program, and the card that is in at the end.
#[derive(Default, Debug, PartialEq, Eq)]
pub struct Held {
    pub messages: usize,
    pub escapes: usize,
    pub refused: usize,
    pub cards: usize,
    pub image: Vec<u8>,
}

fn bytes(word: Option<&str>) -> Result<Vec<u8>, String> {
    match word {
        Some("-") => Ok(Vec::new()),
        Some(word) => script::hex::bytes(word).ok_or_else(|| format!("'{}' is no hex", word)),
        None => Err("a field is missing".to_string()),
    }
}

/// Holds the lines of a trace to the second program.
pub fn hold(lines: &[String]) -> Result<Held, String> {
    let mut held = Held::default();
    let (mut slot, mut image) = (Slot::empty(), Vec::new());
    for line in lines.iter().filter_map(|line| line.strip_prefix("trace ")) {
        one(line, &mut slot, &mut image, &mut held).map_err(|text| format!("{}: {}", text, line))?;
    }
    held.image = image;
    Ok(held)
}

fn one(line: &str, slot: &mut Slot, image: &mut Vec<u8>, held: &mut Held) -> Result<(), String> {
    let mut words = line.split(' ');
    match words.next().unwrap_or_default() {
        "in" => {
            let kind = words.next().and_then(|word| word.parse().ok()).ok_or("no kind")?;
            let record = bytes(words.next())?;
            *image = bytes(words.next())?;
            reader::insert(slot, kind, image).map_err(|number| format!("the second program refuses it, {}", number))?;
            held.cards += 1;
            same("record", &record, &case::raw(slot))
        }
        "out" => {
            reader::remove(slot);
            image.clear();
            same("record", &bytes(words.next())?, &case::raw(slot))
        }
        "message" => {
            let (message, told, record) = (bytes(words.next())?, bytes(words.next())?, bytes(words.next())?);
            let (mut answer, before) = ([0; ANSWER_BUFFER], image.clone());
            let length = reader::message(slot, image, &message, &mut answer)
                .map_err(|number| format!("the second program refuses it, {}", number))?;
            held.messages += 1;
            same("answer", &told, &answer[..length])?;
            same("record", &record, &case::raw(slot))?;
            let changed = |k: &usize| before[*k] != image[*k];
            let expected: Vec<String> =
                (0..image.len()).filter(changed).map(|k| format!("{:04x}={:02x}", k, image[k])).collect();
            if words.ne(expected.iter().map(String::as_str)) {
                return Err(format!("the second program changes {:?}", expected));
            }
            Ok(())
        }
        "escape" => {
            let (message, answer) = (bytes(words.next())?, bytes(words.next())?);
            let state = if slot.kind == 0 { 2 } else { u8::from(!slot.active) };
            let length = answer.len().saturating_sub(10) as u8;
            let header = [0x83, length, 0, 0, 0, message[5], message[6], state, 0, 0];
            held.escapes += 1;
            same("header", answer.get(..10).unwrap_or_default(), &header)
        }
        "refused" => {
            let (message, number) = (bytes(words.next())?, words.next().unwrap_or_default());
            let (slot, image) = (&mut slot.clone(), &mut image.clone());
            held.refused += 1;
            match reader::message(slot, image, &message, &mut [0; ANSWER_BUFFER]) {
                Err(given) if given.to_string() == number => Ok(()),
                given => Err(format!("the second program gives {:?}", given)),
            }
        }
        "frame" => {
            let bytes = bytes(words.next())?;
            held.refused += 1;
            match bytes.len() >= 3 && bytes.starts_with(&[0x03, 0x06]) && crate::line::check(&bytes) == 0 {
                true => Err("this is a frame".to_string()),
                false => Ok(()),
            }
        }
        _ => Err("no form of a trace".to_string()),
    }
}

fn same(what: &str, given: &[u8], expected: &[u8]) -> Result<(), String> {
    if given == expected {
        return Ok(());
    }
    Err(format!("the second program's {} is {:02x?}", what, expected))
}

#[cfg(test)]
mod tests {
    use super::*;

    fn trace() -> Vec<String> {
        let mut image = vec![0xff; 264];
        image[260] = 0x07;
        let empty = "0000000800001100000a00000000000000000000000000000000000000000000";
        let text = format!(
            "SLE4442 is in\n\
             trace in 30 1e00000800001100000a00000003000000000000000000000000000000000000 {}\n\
             trace escape 6b01000000000000000002 830f0000000000010000436172642072656164657220312e30\n\
             trace message 62000000000008010000 800600000000080000003b04ffffffff {}\n\
             trace message 6f060000000016000000ffa400000106 800200000000160000009000 {}\n\
             trace message 6f080000000018000000ff20000003010203 800200000000180000009006 {} 0104=06\n\
             trace refused 6500 2\n\
             trace frame 030665\n\
             trace out {}\n",
            script::hex::digits(&image),
            "1e01000800001100000a00000003000000000000000000000000000000000000",
            "1e01060800001100000a00000003000000000000000000000000000000000000",
            "1e01060800001100000a00000002000000000000000000000000000000000000",
            empty,
        );
        text.lines().map(str::to_string).collect()
    }

    #[test]
    fn a_right_trace() {
        assert_eq!(hold(&trace()), Ok(Held { messages: 3, escapes: 1, refused: 2, cards: 1, image: Vec::new() }));
    }

    #[test]
    fn each_wrong_field_is_found() {
        for (from, to, what) in [
            ("trace in 30", "trace in 31", "refuses it"),
            ("trace in 30 1e0000", "trace in 30 1e0100", "record"),
            ("180000009006", "180000009005", "answer"),
            ("0a00000002", "0a00000003", "record"),
            ("0104=06", "0104=03", "changes"),
            (" 0104=06", "", "changes"),
            ("9000 1e0106", "9000 1e0105", "record"),
            ("830f", "8310", "header"),
            ("6500 2", "6500 3", "gives"),
            ("frame 030665", "frame 030605", "this is a frame"),
            ("trace frame", "trace fame", "no form"),
            ("trace out 00", "trace out 1e", "record"),
        ] {
            let wrong: Vec<String> = trace().iter().map(|line| line.replace(from, to)).collect();
            assert!(wrong != trace(), "{}", from);
            let told = hold(&wrong).unwrap_err();
            assert!(told.contains(what), "{}: {}", from, told);
        }
    }
}
