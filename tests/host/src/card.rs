//! A card file, read again: what the device wrote, by docs/HOST.md.

use script::cards;

/// The image that a card file tells of.
pub fn image(text: &str) -> Result<Vec<u8>, String> {
    let mut lines = text.lines().filter(|line| !line.starts_with('#')).map(|line| line.split('|').next().unwrap_or(""));
    let first = lines.next().unwrap_or_default();
    let name = first.strip_prefix("kind ").ok_or("no kind")?.trim();
    let kind = cards::named(name).ok_or_else(|| format!("'{}' is no kind", name))?;
    let mut image = vec![0xff; kind.memory + kind.protectable / 8];
    image.resize(kind.image, 0x00);
    let bytes = |text: &str| script::hex::bytes(&text.split_whitespace().collect::<String>()).ok_or("no bytes");
    let put = |image: &mut [u8], place: usize, bytes: &[u8]| match image.get_mut(place..place + bytes.len()) {
        Some(part) => {
            part.copy_from_slice(bytes);
            Ok(())
        }
        None => Err(format!("{} bytes at {:04X} are past the end", bytes.len(), place)),
    };
    let mut end = None;
    let mut repeated = false;
    for line in lines {
        let (word, rest) = line.split_once(' ').unwrap_or((line.trim(), ""));
        match (word, &kind.code, end) {
            ("counter", Some(code), None) => put(&mut image, code.counter, &bytes(rest)?)?,
            ("code", Some(code), None) => put(&mut image, code.place, &bytes(rest)?)?,
            ("protected", _, None) => {
                for range in rest.trim().split(',').filter(|&range| range != "none") {
                    let (first, last) = range.split_once("..").unwrap_or((range, range));
                    let number = |text: &str| usize::from_str_radix(text, 16).map_err(|_| format!("'{}'", text));
                    for place in number(first)?..=number(last)? {
                        image[kind.memory + place / 8] &= !(1 << (place % 8));
                    }
                }
            }
            ("memory", _, None) => end = Some(0),
            ("*", _, Some(_)) => repeated = true,
            (_, _, Some(filled)) => {
                let place = usize::from_str_radix(word, 16).map_err(|_| format!("'{}' is no address", word))?;
                for next in filled..if repeated { place } else { filled } {
                    image[next] = image[next - 16];
                }
                if !repeated && place != filled {
                    return Err(format!("{:04X} is next, and {:04X} stands", filled, place));
                }
                repeated = false;
                let row = bytes(rest)?;
                put(&mut image, place, &row)?;
                end = Some(place + row.len());
            }
            _ => return Err(format!("'{}' is no line of this card", line)),
        }
    }
    let dumped = match &kind.code {
        Some(code) if code.counter < kind.memory => code.counter,
        _ => kind.memory,
    };
    match end {
        Some(end) if end == dumped => Ok(image),
        _ => Err(format!("the dump does not end at {:04X}", dumped)),
    }
}
