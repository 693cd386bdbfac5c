use super::*;

fn bytes(text: &str) -> Vec<u8> {
    let digits: String = text.split_whitespace().collect();
    (0..digits.len() / 2).map(|k| u8::from_str_radix(&digits[2 * k..2 * k + 2], 16).unwrap()).collect()
}

/// A transfer of these data.
fn transfer(data: &str) -> Vec<u8> {
    let data = bytes(data);
    [&[0x6f, data.len() as u8, 0, 0, 0, 0, 9, 0, 0, 0][..], &data].concat()
}

/// What is told of the answer to a transfer that succeeded with these data: the part of that name.
fn told(name: &str, apdu: &str, data: &str) -> Option<String> {
    let data = bytes(data);
    let whole = [&[0x80, data.len() as u8, 0, 0, 0, 0, 9, 0, 0, 0][..], &data].concat();
    answer(0, &transfer(apdu), &whole).into_iter().find(|(part, _)| *part == name).map(|(_, text)| text)
}

#[test]
fn messages() {
    assert_eq!(message(0, &bytes("62 00000000 00 07 000000")), "62 power on, bSlot 00, bSeq 07");
    assert_eq!(message(0, &bytes("65 00000000 05 07 000000")), "65 slot status, bSlot 05, bSeq 07");
    assert_eq!(
        message(0, &bytes("63 FFFFFFFF 00 07 010203")),
        "63 power off, bSlot 00, bSeq 07, dwLength FFFFFFFFh where 0 bytes came, bytes 7 to 9 01 02 03"
    );
    assert_eq!(message(0, &bytes("69 00000000 00 07 000000")), "69 an unsupported type, bSlot 00, bSeq 07");
    assert_eq!(message(0, &[0x65]), "a message of only 1 bytes: 65");
    // Data of a type that has none.
    let text = "62 power on, bSlot 00, bSeq 07, 2 data bytes AA BB";
    assert_eq!(message(0, &bytes("62 02000000 00 07 000000 AA BB")), text);
    let text = "6B an unsupported type, bSlot 00, bSeq 07, dwLength 00000000h where 1 bytes came, 1 data bytes 02";
    assert_eq!(message(0, &bytes("6B 00000000 00 07 000000 02")), text);
}

/// A message that the device answers itself.
#[test]
fn escapes() {
    let told = |message: &str, answer: &str| escape(&bytes(message), &bytes(answer));
    let own = ("device", "answered this itself: the reader was not asked".to_string());
    let status = ("status", "00 success, card active, error 00 none".to_string());
    assert_eq!(
        told("6B 01000000 00 01 000000 02", "83 04000000 00 01 000000 52 20 31 7E"),
        [
            ("sent", "6B escape, bSlot 00, bSeq 01, 1 data bytes 02".to_string()),
            ("answer", "83 escape, bSlot 00, bSeq 01".to_string()),
            status.clone(),
            ("data", "52 20 31 7E, \"R 1~\"".to_string()),
            own.clone(),
        ]
    );
    // Bytes that are no text, and none at all.
    assert_eq!(told("6B 00000000 00 01 000000", "83 02000000 00 01 000000 52 7F")[3].1, "52 7F");
    assert_eq!(
        told("6B 05000000 01 02 010203", "83 00000000 01 02 000000"),
        [
            (
                "sent",
                "6B escape, bSlot 01, bSeq 02, dwLength 00000005h where 0 bytes came, bytes 7 to 9 01 02 03, \
                 0 data bytes"
                    .to_string()
            ),
            ("answer", "83 escape, bSlot 01, bSeq 02".to_string()),
            status,
            own,
        ]
    );
    // The reader has no such answer.
    assert!(answer(0, &[], &bytes("83 00000000 00 01 000000"))[0].1.starts_with("83 no answer type of the paper,"));
}

#[test]
fn messages_of_parameters() {
    for (text, wanted) in [
        ("6C 00000000 00 07 000000", "6C get parameters, bSlot 00, bSeq 07"),
        ("6D 00000000 00 07 010203", "6D reset parameters, bSlot 00, bSeq 07, bytes 7 to 9 01 02 03"),
        (
            "61 05000000 00 07 000000 11 00 00 0A 00",
            "61 set parameters, bSlot 00, bSeq 07, protocol number 00, 5 data bytes 11 00 00 0A 00",
        ),
        (
            "61 07000000 01 07 010203 11 10 00 4D 00 20 00",
            "61 set parameters, bSlot 01, bSeq 07, bytes 8 to 9 02 03, protocol number 01, \
             7 data bytes 11 10 00 4D 00 20 00",
        ),
        (
            "61 05000000 00 07 820000",
            "61 set parameters, bSlot 00, bSeq 07, dwLength 00000005h where 0 bytes came, protocol number 82, \
             0 data bytes",
        ),
    ] {
        assert_eq!(message(0, &bytes(text)), wanted);
    }
    let set = sent_set(&bytes("61 05000000 00 07 000000 11 00 00 0A 00"));
    assert_eq!(set, Some(parameters::told(0, &[0x11, 0x00, 0x00, 0x0a, 0x00])));
    let none = sent_set(&bytes("61 00000000 00 07 010000"));
    assert_eq!(none.as_deref(), Some("no set: T=1 has 7 bytes, and these are 0"));
    for other in ["", "61", "61 05000000 00 07 0000", "6C 00000000 00 07 000000"] {
        assert_eq!(sent_set(&bytes(other)), None);
    }
}

#[test]
fn commands() {
    for (apdu, text) in [
        ("FF A4 00 00 01 06", "A4 select type 06"),
        ("FF 01 00 00 01 03", "01 set the reader page, code 03"),
        ("FF B0 01 02 01", "B0 read 1 byte from 0102"),
        ("FF B0 01 02 10", "B0 read 16 bytes from 0102"),
        ("FF B1 00 00 04", "B1 read the counter"),
        ("FF B2 00 10 02", "B2 read 2 bytes of protection bits from 0010"),
        ("FF D0 00 10 02 AA BB", "D0 write AA BB at 0010"),
        ("FF D1 00 10 02 AA BB", "D1 protect AA BB at 0010"),
        ("FF 20 00 00 03 01 02 03", "20 present code 01 02 03"),
        ("FF D2 00 01 03 01 02 03", "D2 change the code to 01 02 03"),
        ("FF B3 00 00 00", "no command: FF B3 00 00 00"),
        ("00 B0 00 00 01", "no command: 00 B0 00 00 01"),
        ("FF B0", "2 data bytes FF B0"),
        ("FF B0 01 02 10 AA", "B0 read 16 bytes from 0102, then 1 data bytes AA"),
        ("FF B1 00 00 04 AA BB", "B1 read the counter, then 2 data bytes AA BB"),
        ("FF B2 00 10 02 00", "B2 read 2 bytes of protection bits from 0010, then 1 data bytes 00"),
    ] {
        // On every card but one whose addresses have 17 bits.
        for kind in [0, 1, 9, 10, 20, 21, 30, 31, 77] {
            assert_eq!(message(kind, &transfer(apdu)), format!("6F transfer, bSlot 00, bSeq 09, {}", text));
        }
    }
}

/// On kind 11 B1 and D1 are B0 and D0 with the top address bit.
#[test]
fn commands_with_a_top_bit() {
    for (apdu, text) in [
        ("FF B0 01 02 01", "B0 read 1 byte from 00102"),
        ("FF B0 FF FF 02", "B0 read 2 bytes from 0FFFF"),
        ("FF B1 00 00 04", "B1 read 4 bytes from 10000"),
        ("FF B1 FF FF 01", "B1 read 1 byte from 1FFFF"),
        ("FF B1 FF FF 01 AA", "B1 read 1 byte from 1FFFF, then 1 data bytes AA"),
        ("FF D0 00 10 02 AA BB", "D0 write AA BB at 00010"),
        ("FF D1 00 10 02 AA BB", "D1 write AA BB at 10010"),
        ("FF D1 FF FF 01 AA", "D1 write AA at 1FFFF"),
        ("FF 01 00 00 01 03", "01 set the reader page, code 03"),
        ("FF B2 00 10 02", "B2 read 2 bytes of protection bits from 0010"),
        ("FF B1 00", "3 data bytes FF B1 00"),
        ("00 B1 00 00 01", "no command: 00 B1 00 00 01"),
    ] {
        assert_eq!(message(11, &transfer(apdu)), format!("6F transfer, bSlot 00, bSeq 09, {}", text));
    }
    // What B1 reads there is no counter.
    let read = bytes("80 06000000 00 09 00 00 00 05 00 00 00 90 00");
    let told = |kind: u8| answer(kind, &transfer("FF B1 00 00 04"), &read)[2..].to_vec();
    let done = ("word", "90 00 done".to_string());
    assert_eq!(told(11), [("data", "05 00 00 00".to_string()), done.clone()]);
    assert_eq!(told(30), [("data", "05 00 00 00, counter 05: 2 tries left".to_string()), done]);
}

#[test]
fn image_bytes_that_changed() {
    assert_eq!(changed(11, &[]), None);
    let told = |kind: u8, places: &[usize]| changed(kind, places).unwrap();
    assert_eq!(told(11, &(0xfff0..0x10010).collect::<Vec<_>>()), "0FFF0..1000F (32 bytes)");
    assert_eq!(told(11, &[0x1ffff]), "1FFFF (1 byte)");
    assert_eq!(told(10, &[0x0000, 0xfffe, 0xffff]), "0000 FFFE..FFFF (3 bytes)");
    let runs = |count: usize| (0..count).map(|k| 2 * k).collect::<Vec<_>>();
    assert_eq!(told(9, &runs(8)), "0000 0002 0004 0006 0008 000A 000C 000E (8 bytes)");
    assert_eq!(told(9, &runs(9)), "0000 0002 0004 0006 0008 000A 000C 000E .. (9 bytes)");
}

#[test]
fn slot_records() {
    let mut record = [0; 32];
    record[3] = 8;
    assert_eq!(slot(&record), "no card, inactive, no type, page 8, not chosen, closed, tries left 0, protected 0");
    record[..5].copy_from_slice(&[11, 1, 2, 32, 0]);
    assert_eq!(slot(&record), "kind 11, active, type 02, page 32, not chosen, closed, tries left 0, protected 0");
    record[..5].copy_from_slice(&[20, 1, 5, 128, 1]);
    record[13..17].copy_from_slice(&[8, 0xff, 0x03, 1]);
    assert_eq!(slot(&record), "kind 20, active, type 05, page 128, chosen, open, tries left 8, protected 1023");
    // A wrong reader may leave any bytes.
    record[16] = 2;
    assert!(slot(&record).contains(", page 128, 02 for not chosen or chosen, open,"), "{}", slot(&record));
    let (active, open) = ("FF for inactive or active", "FF for closed or open");
    let page = "page 255, FF for not chosen or chosen";
    let wanted = format!("kind 255, {}, type FF, {}, {}, tries left 255, protected 65535", active, page, open);
    assert_eq!(slot(&[0xff; 32]), wanted);
}

#[test]
fn long_rows_are_cut() {
    assert_eq!(row(&[1; 24]), ["01"; 24].join(" "));
    assert_eq!(row(&[1; 25]), format!("{} .. 01 01 01 01 (25 bytes)", ["01"; 16].join(" ")));
}

#[test]
fn answers() {
    let status = answer(0, &bytes("65 00000000 00 07 000000"), &bytes("81 00000000 00 07 01 00 01"));
    assert_eq!(status[0], ("answer", "81 slot status, bSlot 00, bSeq 07, clock stopped".to_string()));
    assert_eq!(status[1], ("status", "01 success, card inactive, error 00 none".to_string()));
    assert_eq!(status.len(), 2);
    let reset = answer(0, &bytes("62 00000000 00 00 000000"), &bytes("80 02000000 00 00 00 00 00 3B 00"));
    assert_eq!(reset[2], ("data", "3B 00, the answer to reset".to_string()));
    for (error, text) in [
        (0x00, "the message type is not supported"),
        (0x01, "dwLength is wrong"),
        (0x05, "there is no such slot"),
        (0x07, "bPowerSelect is not supported"),
        (0x08, "wLevelParameter is not 0"),
        (0xfe, "the card is mute: there is none, or it is not active"),
        (0x02, "no error of the paper"),
    ] {
        let failed = answer(0, &transfer(""), &[0x80, 0, 0, 0, 0, 0, 9, 0x42, error, 0]);
        let wanted = format!("42 failed, no card, or another slot, error {:02X} {}", error, text);
        assert_eq!(failed[1], ("status", wanted));
    }
}

#[test]
fn answers_of_parameters() {
    let get = bytes("6C 00000000 00 07 000000");
    let parts = answer(0, &get, &bytes("82 05000000 00 07 01 00 00 11 00 00 0A 00"));
    let wanted = [
        ("answer", "82 parameters, bSlot 00, bSeq 07, protocol number 00".to_string()),
        ("status", "01 success, card inactive, error 00 none".to_string()),
        ("data", "11 00 00 0A 00".to_string()),
        ("set", parameters::told(0, &[0x11, 0x00, 0x00, 0x0a, 0x00])),
    ];
    assert_eq!(parts, wanted);
    let parts = answer(0, &get, &bytes("82 07000000 00 07 00 00 01 11 10 00 4D 00 20 00"));
    assert_eq!(parts[0].1, "82 parameters, bSlot 00, bSeq 07, protocol number 01");
    assert_eq!(parts[3], ("set", parameters::told(1, &[0x11, 0x10, 0x00, 0x4d, 0x00, 0x20, 0x00])));
    for (error, text) in [
        (0x01, "dwLength is wrong"),
        (0x05, "there is no such slot"),
        (0x07, "the protocol number does not fit the number of bytes"),
        (0x08, "no error of the paper"),
        (0x0a, "byte 10: FI or DI is reserved"),
        (0x0b, "byte 11: the upper six bits are not those of the protocol"),
        (0x0c, "no error of the paper"),
        (0x0d, "byte 13: BWI is above 9"),
        (0x0e, "byte 14: the clock stop is above 3"),
        (0x10, "byte 16: NAD is not 0"),
        (0xfe, "there is no card"),
    ] {
        let failed = answer(0, &get, &[0x82, 0, 0, 0, 0, 0, 7, 0x41, error, 0]);
        assert_eq!(failed[1], ("status", format!("41 failed, card inactive, error {:02X} {}", error, text)));
        assert_eq!(failed.len(), 2);
    }
}

#[test]
fn status_words() {
    for (word, text) in [
        ("90 00", "done"),
        ("67 00", "wrong length"),
        ("6E 00", "wrong class: the first byte is not FF"),
        ("6D 00", "no such command here"),
        ("69 85", "no type is selected"),
        ("6B 00", "wrong place: P1P2, or the range that it begins"),
        ("6A 80", "wrong value: the type, or the page code"),
        ("69 82", "not allowed: the card is closed"),
        ("65 81", "a protected byte is not the one sent; all unprotected ones are stored"),
        ("69 83", "no status word of the paper"),
        ("65 80", "no status word of the paper"),
        ("69 81", "no status word of the paper"),
    ] {
        assert_eq!(told("word", "FF B0 00 00 01", word), Some(format!("{} {}", word, text)));
    }
    // A card without a code: what would be asked of a code card is no command of it.
    for apdu in ["FF 20 00 00 02 01 02", "FF 20 00 00 03 01 02 03", "FF B1 00 00 03", "FF D2 00 01 03 01 02 03"] {
        assert_eq!(told("word", apdu, "6D 00").as_deref(), Some("6D 00 no such command here"), "{}", apdu);
    }
    let codes = [("FF 20 00 00 03 01 02 03", "90 07"), ("FF 20 00 00 02 01 02", "90 FF")];
    let open = [
        "90 07 the right code: the card is open, counter 07, 3 tries left",
        "90 FF the right code: the card is open, counter FF, 8 tries left",
    ];
    for ((apdu, word), text) in codes.iter().zip(open) {
        assert_eq!(told("word", apdu, word).as_deref(), Some(text));
    }
    let closed = "90 04 the card is closed: counter 04, 1 try left";
    assert_eq!(told("word", codes[0].0, "90 04").as_deref(), Some(closed));
    let closed = "90 00 the card is closed: counter 00, no tries left";
    assert_eq!(told("word", codes[0].0, "90 00").as_deref(), Some(closed));
}

/// The message has succeeded, whatever became of the bytes.
#[test]
fn a_write_over_a_protected_byte() {
    let parts = answer(0, &transfer("FF D0 00 10 02 AA BB"), &bytes("80 02000000 00 09 00 00 00 65 81"));
    let wanted = [
        ("answer", "80 data block, bSlot 00, bSeq 09"),
        ("status", "00 success, card active, error 00 none"),
        ("word", "65 81 a protected byte is not the one sent; all unprotected ones are stored"),
    ];
    assert_eq!(parts, wanted.map(|(name, text)| (name, text.to_string())));
}

#[test]
fn data() {
    let counter = told("data", "FF B1 00 00 04", "05 00 00 00 90 00");
    assert_eq!(counter.as_deref(), Some("05 00 00 00, counter 05: 2 tries left"));
    // Bit k of byte j is the byte 10h + 8j + k; 0 is protected.
    let bits = told("data", "FF B2 00 10 02", "F1 7E 90 00");
    assert_eq!(bits.as_deref(), Some("F1 7E, protected: 0011..0013 0018 001F"));
    let bits = told("data", "FF B2 00 00 01", "FF 90 00");
    assert_eq!(bits.as_deref(), Some("FF, protected: none"));
    assert_eq!(told("data", "FF B0 00 00 01", "A2 90 00").as_deref(), Some("A2"));
    assert_eq!(told("data", "FF B0 00 00 01", "90 00"), None);
}

/// A reader that is wrong may answer anything to anything; it is told all the same.
#[test]
fn odd_answers() {
    let long = [&[0x80, 4, 0, 0, 0, 0, 9, 0, 0, 0][..], &[1, 2, 0x90, 0x00]].concat();
    for apdu in ["", "FF", "FF B1", "FF B2", "FF B2 00", "FF 20"] {
        let parts = answer(0, &transfer(apdu), &long);
        assert_eq!(parts.last().map(|(name, _)| *name), Some("word"));
    }
    assert_eq!(answer(0, &[0x6f], &long).len(), 4);
    assert_eq!(answer(0, &[], &long).len(), 3);
    assert_eq!(answer(0, &transfer(""), &long[..9])[0].1, "only 9 bytes: 80 04 00 00 00 00 09 00 00");
    let parts = answer(0, &transfer(""), &[0x55, 1, 0, 0, 0, 0, 9, 3, 1, 0]);
    assert_eq!(parts[0].1, "55 no answer type of the paper, bSlot 00, bSeq 09, dwLength 1 where 0 bytes came");
    assert_eq!(parts[1].1, "03 success, no state of the paper, error 01 which a success does not have");
    // An answer of parameters without a set, with one of no protocol, and to what asked for none.
    let empty = [0x82, 0, 0, 0, 0, 0, 9, 0, 0, 1];
    assert_eq!(answer(0, &transfer(""), &empty).last().unwrap().1, "no set: T=1 has 7 bytes, and these are 0");
    let unknown = [&[0x82, 1, 0, 0, 0, 0, 9, 0, 0, 0x80][..], &[7; 300]].concat();
    let parts = answer(0, &[0x61], &unknown);
    assert_eq!(parts.last().unwrap().1, "no set: protocol number 80 is neither T=0 nor T=1");
    let failed = [&[0x82, 2, 0, 0, 0, 0, 9, 0x40, 0x0a, 1][..], &[0x90, 0x00]].concat();
    assert_eq!(answer(0, &[0x61], &failed).last(), Some(&("data", "90 00".to_string())));
}

/// Whatever the message and the answer begin with and however long they are, they are told.
#[test]
fn any_bytes_are_told() {
    for first in 0..=255_u8 {
        for length in (0..20).chain([30, 271]) {
            for fill in [0x00, 0x01, 0x41, 0x7f, 0xff] {
                let mut whole = vec![fill; length];
                whole.iter_mut().take(1).for_each(|byte| *byte = first);
                let _ = sent_set(&whole);
                for card in [0, 11] {
                    assert!(!message(card, &whole).is_empty());
                    for kind in [0x61, 0x62, 0x65, 0x6c, 0x6f] {
                        assert!(!answer(card, &[kind; 17], &whole).is_empty());
                    }
                }
            }
        }
    }
}
