//! The page that A4 sets by the card's type, and the flag that says whether the host has chosen one.

use crate::{bytes, raw, sle4428, sle4442, try_it, Host};
use second::case::{Call, Case};
use second::reader::{self, Chip, Slot};

const STATUS: &str = "65 00000000 00 00 000000";
const POWER_ON: &str = "62 00000000 00 00 00 0000";
const POWER_OFF: &str = "63 00000000 00 00 000000";

const PAGES: [u8; 5] = [8, 16, 32, 64, 128];

/// Every kind with its select type.
#[rustfmt::skip]
const KINDS: [(u8, u8); 15] = [
    (1, 1), (2, 1), (3, 1), (4, 1), (5, 1), (6, 2), (7, 2), (8, 2), (9, 2), (10, 2), (11, 2),
    (20, 5), (21, 5), (30, 6), (31, 6),
];

/// An image of a kind: full counters, nothing protected, I2C of 55h.
fn image(kind: u8) -> Vec<u8> {
    match kind {
        20 | 21 => sle4428(0xff),
        30 => sle4442(7),
        31 => [&[0x55; 256][..], &[0xff; 4], &[0x00; 4]].concat(),
        _ => vec![0x55; Chip::of(kind).unwrap().image],
    }
}

/// A card of a kind that went in and is powered.
fn powered(kind: u8) -> Host {
    let mut host = Host::new();
    host.0.image = image(kind);
    assert_eq!(reader::insert(&mut host.0.slot, kind, &host.0.image), Ok(()));
    assert_eq!(page(&host), (8, false));
    host.raw(POWER_ON);
    host
}

fn select(host: &mut Host, own: u8) -> String {
    host.send_bytes(&[0xff, 0xa4, 0x00, 0x00, 0x01, own])
}

fn page(host: &Host) -> (u8, bool) {
    (host.0.slot.page, host.0.slot.chosen)
}

// ---- A4

#[test]
fn the_page_of_each_type() {
    for (kind, own) in KINDS {
        let mut host = powered(kind);
        assert_eq!(page(&host), (8, false));
        let wanted = if own == 2 { 32 } else { 8 };
        for _ in 0..2 {
            assert_eq!(select(&mut host, own), "9000");
            assert_eq!(page(&host), (wanted, false), "kind {}", kind);
        }
        // It is not set again by power, and A4 finds it there.
        host.raw(POWER_OFF);
        assert_eq!(page(&host), (wanted, false));
        host.raw(POWER_ON);
        assert_eq!(page(&host), (wanted, false));
        assert_eq!(select(&mut host, own), "9000");
        assert_eq!(page(&host), (wanted, false));
    }
}

/// Any page may stand in a sound record, chosen or not.
#[test]
fn from_every_page() {
    for (kind, own) in KINDS {
        for before in PAGES {
            for selected in [0, own] {
                let mut host = powered(kind);
                let slot = Slot { page: before, selected, ..host.0.slot.clone() };
                host.0.slot = slot.clone();
                assert_eq!(select(&mut host, own), "9000");
                let after = match own {
                    1 => 8,
                    2 => 32,
                    _ => before,
                };
                assert_eq!(host.0.slot, Slot { page: after, selected: own, ..slot.clone() }, "kind {}", kind);
                // Chosen, it stays.
                let slot = Slot { chosen: true, ..slot };
                host.0.slot = slot.clone();
                assert_eq!(select(&mut host, own), "9000");
                assert_eq!(host.0.slot, Slot { selected: own, ..slot }, "kind {}", kind);
            }
        }
    }
}

/// A4 closes the card as before, and leaves the page.
#[test]
fn a_code_card_that_is_open() {
    for (kind, own, code) in [(20, 5, "FF 20 00 00 02 AA BB"), (30, 6, "FF 20 00 00 03 11 22 33")] {
        for chosen in [false, true] {
            let mut host = powered(kind);
            (host.0.slot.page, host.0.slot.chosen) = (64, chosen);
            assert_eq!(select(&mut host, own), "9000");
            host.send(code);
            assert!(host.0.slot.open);
            assert_eq!(select(&mut host, own), "9000");
            assert!(!host.0.slot.open);
            assert_eq!(page(&host), (64, chosen));
        }
    }
}

#[test]
fn a_refused_a4_changes_nothing() {
    for (kind, own) in KINDS {
        for (before, chosen, selected) in [(16, false, 0), (16, true, 0), (128, false, own), (128, true, own)] {
            let mut host = powered(kind);
            (host.0.slot.page, host.0.slot.chosen, host.0.slot.selected) = (before, chosen, selected);
            let slot = host.0.slot.clone();
            for other in [0x00, 0x01, 0x02, 0x03, 0x05, 0x06, 0xff].into_iter().filter(|&other| other != own) {
                assert_eq!(select(&mut host, other), "6a80", "kind {}", kind);
            }
            assert_eq!(host.send_bytes(&[0xff, 0xa4, 0x00, 0x00, 0x00]), "6700");
            assert_eq!(host.send_bytes(&[0xff, 0xa4, 0x00, 0x00, 0x01]), "6700");
            assert_eq!(host.send_bytes(&[0xff, 0xa4, 0x00, 0x00, 0x01, own, own]), "6700");
            assert_eq!(host.send_bytes(&[0xff, 0xa4, 0x00, 0x00, 0x02, own, own]), "6700");
            assert_eq!(host.send_bytes(&[0xff, 0xa4, 0x00, 0x01, 0x01, own]), "6b00");
            assert_eq!(host.send_bytes(&[0xfe, 0xa4, 0x00, 0x00, 0x01, own]), "6e00");
            failed_messages(&mut host, 0xa4, own);
            assert_eq!(host.0.slot, slot);
            // An inactive card is sent nothing.
            host.raw(POWER_OFF);
            let data = format!("FF A4 00 00 01 {:02X}", own);
            assert_eq!(host.raw(&format!("6F 06000000 00 07 000000 {}", data)), "0 8000000000000741fe00");
            assert_eq!(page(&host), (before, chosen));
        }
    }
}

/// A 6Fh with such a command that fails: another dwLength, bSlot 1, wLevelParameter 1.
fn failed_messages(host: &mut Host, ins: u8, value: u8) {
    let data = format!("FF {:02X} 00 00 01 {:02X}", ins, value);
    assert_eq!(host.raw(&format!("6F 05000000 00 07 000000 {}", data)), "0 80000000000007400100");
    assert_eq!(host.raw(&format!("6F 06000000 01 07 000000 {}", data)), "0 80000000000107420500");
    assert_eq!(host.raw(&format!("6F 06000000 00 07 000100 {}", data)), "0 80000000000007400800");
}

// ---- 01

#[test]
fn a_chosen_page_is_kept() {
    for (kind, own) in KINDS.into_iter().filter(|&(kind, _)| kind < 20) {
        for (code, chosen) in (0x03..=0x07).zip(PAGES) {
            let mut host = powered(kind);
            assert_eq!(select(&mut host, own), "9000");
            assert_eq!(host.send_bytes(&[0xff, 0x01, 0x00, 0x00, 0x01, code]), "9000");
            assert_eq!(page(&host), (chosen, true), "kind {}", kind);
            assert_eq!(select(&mut host, own), "9000");
            assert_eq!(page(&host), (chosen, true), "kind {}", kind);
            for message in [POWER_OFF, POWER_ON, POWER_ON, STATUS] {
                host.raw(message);
                assert_eq!(page(&host), (chosen, true));
            }
            assert_eq!(select(&mut host, own), "9000");
            assert_eq!(page(&host), (chosen, true));
            // Another choice is taken, and kept as well.
            assert_eq!(host.send("FF 01 00 00 01 04"), "9000");
            assert_eq!(select(&mut host, own), "9000");
            assert_eq!(page(&host), (16, true));
        }
    }
}

#[test]
fn a_refused_01_chooses_nothing() {
    for (kind, own) in KINDS {
        for chosen in [false, true] {
            let mut host = powered(kind);
            (host.0.slot.page, host.0.slot.chosen) = (64, chosen);
            let slot = host.0.slot.clone();
            assert_eq!(host.send("FF 01 00 00 01 03"), "6985");
            assert_eq!(host.0.slot, slot);
            host.0.slot.selected = own;
            let slot = host.0.slot.clone();
            let i2c = kind < 20;
            for (apdu, word) in [
                ("FF 01 00 00 01 02", "6a80"),
                ("FF 01 00 00 01 08", "6a80"),
                ("FF 01 00 00 01 83", "6a80"),
                ("FF 01 00 01 01 03", "6b00"),
                ("FF 01 01 00 01 03", "6b00"),
                ("FF 01 00 00 00", "6700"),
                ("FF 01 00 00 01", "6700"),
                ("FF 01 00 00 01 03 03", "6700"),
                ("FF 01 00 00 02 03 03", "6700"),
            ] {
                assert_eq!(host.send(apdu), if i2c { word } else { "6d00" }, "kind {}: {}", kind, apdu);
            }
            assert_eq!(host.send("FF 01 00 00 01 03").as_str(), if i2c { "9000" } else { "6d00" });
            host.0.slot = slot.clone();
            assert_eq!(host.send("FF 01 00 00"), "6700");
            assert_eq!(host.send("FE 01 00 00 01 03"), "6e00");
            failed_messages(&mut host, 0x01, 0x03);
            assert_eq!(host.0.slot, slot, "kind {}", kind);
        }
    }
    // What was refused leaves A4 its page.
    let mut host = powered(9);
    assert_eq!(select(&mut host, 2), "9000");
    assert_eq!(host.send("FF 01 00 00 01 08"), "6a80");
    host.raw(POWER_OFF);
    assert_eq!(host.raw("6F 06000000 00 07 000000 FF 01 00 00 01 07"), "0 8000000000000741fe00");
    host.0.slot.page = 128;
    host.raw(POWER_ON);
    assert_eq!(select(&mut host, 2), "9000");
    assert_eq!(page(&host), (32, false));
}

// ---- insertion and removal

#[test]
fn the_flag_goes_with_the_card() {
    for (kind, own) in KINDS.into_iter().filter(|&(kind, _)| kind < 20) {
        let mut host = powered(kind);
        assert_eq!(select(&mut host, own), "9000");
        assert_eq!(host.send("FF 01 00 00 01 07"), "9000");
        // A card that does not go in changes nothing.
        assert_eq!(host.insert(30, &sle4442(7)), "in 5");
        assert_eq!(page(&host), (128, true));
        assert_eq!(host.remove(), "out 0");
        assert_eq!(host.0.slot, Slot::empty());
        assert_eq!(host.raw(STATUS), "0 81000000000000020001");
        // The next card has the page of its type.
        assert_eq!(host.insert(9, &image(9)), "in 0");
        assert_eq!(page(&host), (8, false));
        host.raw(POWER_ON);
        assert_eq!(select(&mut host, 2), "9000");
        assert_eq!(page(&host), (32, false));
    }
    for (kind, _) in KINDS {
        // Insertion does not look at the flag, and clears it.
        let mut slot = Slot { page: 64, chosen: true, ..Slot::empty() };
        assert_eq!(reader::insert(&mut slot, kind, &image(kind)), Ok(()));
        assert_eq!((slot.page, slot.chosen), (8, false));
        let mut slot = Slot { kind, page: 64, chosen: true, ..Slot::empty() };
        reader::remove(&mut slot);
        assert_eq!(slot, Slot::empty());
    }
}

// ---- writes

/// The reader page is shown by a write that runs round on the chip's.
#[test]
fn what_a_write_shows() {
    let write = |host: &mut Host, count: u8| {
        let data: Vec<u8> = (0..count).collect();
        assert_eq!(host.send_bytes(&[&[0xff, 0xd0, 0x00, 0x00, count], &data[..]].concat()), "9000");
        host.0.image[..usize::from(count)].to_vec()
    };
    // Chip page 8. With the page of its type the range holds the data; with 32, chosen, all sixteen
    // bytes are one cut: 0 to 7 hold the last eight, and 8 to 15 are as they were.
    let mut host = powered(1);
    assert_eq!(select(&mut host, 1), "9000");
    assert_eq!(write(&mut host, 16), (0..16).collect::<Vec<u8>>());
    let mut host = powered(1);
    assert_eq!(select(&mut host, 1), "9000");
    assert_eq!(host.send("FF 01 00 00 01 05"), "9000");
    assert_eq!(select(&mut host, 1), "9000");
    assert_eq!(write(&mut host, 16), bytes("08 09 0A 0B 0C 0D 0E 0F 55 55 55 55 55 55 55 55"));
    // Chip page 32. With the page of its type, and with 8, chosen, the range holds the data; with 64,
    // chosen, bytes 0 to 31 hold the second half and the others are as they were.
    for (codes, round) in [("", false), ("03", false), ("06", true)] {
        let mut host = powered(6);
        assert_eq!(select(&mut host, 2), "9000");
        if !codes.is_empty() {
            assert_eq!(host.send(&format!("FF 01 00 00 01 {}", codes)), "9000");
            assert_eq!(select(&mut host, 2), "9000");
        }
        let wanted: Vec<u8> = if round { (32..64).chain([0x55; 32]).collect() } else { (0..64).collect() };
        assert_eq!(write(&mut host, 64), wanted, "{}", codes);
    }
}

// ---- what is turned down

#[test]
fn no_card_and_the_flag() {
    let empty = Slot { chosen: true, ..Slot::empty() };
    for message in [STATUS, POWER_ON, POWER_OFF, "6D 00000000 00 00 000000", "6F 00000000 01 00 000000"] {
        let message = bytes(message);
        for image in [vec![], sle4442(7)] {
            assert_eq!(try_it(&Slot::empty(), &image, &message, 271), Ok(10));
            assert_eq!(try_it(&empty, &image, &message, 271), Err(4));
            assert_eq!(try_it(&empty, &image, &message[..9], 271), Err(2));
            assert_eq!(try_it(&empty, &image, &message[..9], 270), Err(1));
        }
    }
    // With a card in, the flag says nothing about page, type or power.
    for (kind, own) in KINDS {
        let Slot { tries, protected, .. } = powered(kind).0.slot;
        for (active, selected) in [(false, 0), (true, 0), (true, own)] {
            for page in PAGES {
                let slot = Slot { kind, active, selected, page, tries, protected, chosen: true, ..Slot::empty() };
                assert_eq!(try_it(&slot, &image(kind), &bytes(STATUS), 271), Ok(10), "kind {}", kind);
            }
        }
    }
    let open = Slot { kind: 30, active: true, selected: 6, open: true, tries: 3, chosen: true, ..Slot::empty() };
    assert_eq!(try_it(&open, &sle4442(7), &bytes(STATUS), 271), Ok(10));
    assert_eq!(try_it(&Slot { page: 7, ..open }, &sle4442(7), &bytes(STATUS), 271), Err(4));
}

// ---- raw records

fn case(record: [u8; 32], message: &str, image: &[u8]) -> Case {
    let (message, image) = (bytes(message), image.to_vec());
    Case { call: Call::Message, record, buffer: 271, fill: 0xee, message, image }
}

/// Page and flag stand in bytes 3 and 16.
fn record(kind: u8, active: u8, selected: u8, page: u8, flag: u8) -> [u8; 32] {
    let mut record = raw(&[kind, active, selected, page, 0], 0, 0);
    record[16] = flag;
    record
}

fn hex(record: &[u8]) -> String {
    record.iter().map(|byte| format!("{:02x}", byte)).collect()
}

#[test]
fn trial_lines() {
    let image = image(9);
    let sent =
        |record: [u8; 32], apdu: &str| case(record, &format!("6F 06000000 00 07 000000 {}", apdu), &image).line();
    let line = |record: [u8; 32], word: &str| {
        format!("0 12 {} 80020000000007000000{}{}", hex(&record), word, "ee".repeat(259))
    };
    // A 256 kbit card gets 32, and after 01 what was chosen.
    assert_eq!(sent(record(9, 1, 0, 8, 0), "FF A4 00 00 01 02"), line(record(9, 1, 2, 32, 0), "9000"));
    assert_eq!(sent(record(9, 1, 2, 32, 0), "FF 01 00 00 01 03"), line(record(9, 1, 2, 8, 1), "9000"));
    assert_eq!(sent(record(9, 1, 2, 8, 1), "FF A4 00 00 01 02"), line(record(9, 1, 2, 8, 1), "9000"));
    assert_eq!(sent(record(9, 1, 2, 8, 0), "FF 01 00 00 01 08"), line(record(9, 1, 2, 8, 0), "6a80"));
    assert_eq!(sent(record(9, 1, 2, 8, 0), "FF A4 00 00 01 01"), line(record(9, 1, 2, 8, 0), "6a80"));
    let whole = "0901022000001100000a00000000000001000000000000000000000000000000";
    assert_eq!(hex(&record(9, 1, 2, 32, 1)), whole);
}

/// Byte 16 is 0 or 1, with no card 0; the rest begins at byte 17.
#[test]
fn byte_16_of_the_record() {
    let turned_down = |record: [u8; 32], number: u8, image: &[u8]| {
        let line = format!("{} 0 {} {}", number, hex(&record), "ee".repeat(271));
        assert_eq!(case(record, STATUS, image).line(), line);
    };
    let answered = |record: [u8; 32], image: &[u8]| {
        let line = case(record, STATUS, image).line();
        assert_eq!(line[..5 + 64], format!("0 10 {}", hex(&record)));
    };
    for flag in 0x00..=0xff {
        let (no_card, card) = (record(0, 0, 0, 8, flag), record(1, 1, 1, 16, flag));
        if flag == 0 {
            answered(no_card, &[]);
        } else {
            turned_down(no_card, 4, &[]);
        }
        if flag < 2 {
            answered(card, &[0x55; 128]);
        } else {
            turned_down(card, 4, &[0x55; 128]);
        }
        turned_down(card, 3, &[0x55; 127]);
    }
    for k in 17..32 {
        for flag in [0, 1] {
            let mut record = record(1, 1, 1, 16, flag);
            record[k] = 1;
            turned_down(record, 4, &[0x55; 128]);
        }
    }
    // Any byte 16 goes with an insertion and a removal.
    for flag in [0x00, 0x01, 0x02, 0x80, 0xff] {
        for (call, kind, message) in [(Call::Insertion, 0, vec![1]), (Call::Removal, 1, vec![])] {
            let record = record(kind, 0, 0, 128, flag);
            let case = Case { call, record, buffer: 2, fill: 0xee, message, image: vec![0x55; 128] };
            let after = format!("{:02x}00000800001100000a{}", 1 - kind, "00".repeat(22));
            assert_eq!(case.line(), format!("0 0 {} eeee", after));
        }
    }
}
