use super::*;

/// What is told of a trace with an exchange of most types, and what tshark 4.0.17 prints for its capture, but for lines
/// that are of no use here.
const TOLD: &str = include_str!("told.txt");
const DISSECTED: &str = include_str!("dissected.pdml");

/// The text with one thing replaced, which is in it.
fn with(text: &str, old: &str, new: &str) -> String {
    assert!(text.contains(old), "no '{}'", old);
    text.replacen(old, new, 1)
}

#[test]
fn both_say_the_same() {
    let compared = compare(TOLD, DISSECTED).unwrap();
    let wanted = Compared {
        packets: 20,
        fields: 138,
        data: 58,
        messages: BTreeSet::from([0x61, 0x62, 0x65, 0x69, 0x6b, 0x6d, 0x6f]),
        answers: BTreeSet::from([0x80, 0x81, 0x82, 0x83]),
        unsupported: BTreeSet::from([0x69]),
        misplaced: 2,
    };
    assert_eq!(compared, wanted);
    assert_eq!(compared.missing(), ["63", "6C"]);
    let nothing = compare("ready\n", "<pdml>\n</pdml>\n").unwrap();
    assert_eq!(nothing, Compared::default());
    let all = ["61", "62", "63", "65", "6B", "6C", "6D", "6F", "an unsupported type", "80", "81", "82", "83"];
    assert_eq!(nothing.missing(), all);
}

/// Every field counts, and all of it: one that is another, elsewhere, longer, with other bytes or words, or is not there.
#[test]
fn fields_that_differ() {
    let lines: Vec<&str> = DISSECTED.lines().collect();
    let mut fields = 0;
    for (number, line) in lines.iter().enumerate().filter(|(_, line)| line.contains("<field name=\"usbccid.")) {
        fields += 1;
        let value =
            if line.contains(" value=\"0") { (" value=\"0", " value=\"1") } else { (" value=\"", " value=\"0") };
        for (old, new) in [
            ("usbccid.", "usbccid.other"),
            (" pos=\"", " pos=\"1"),
            (" size=\"", " size=\"1"),
            (": ", ": other "),
            ("(0x", "(0x1"),
            value,
        ] {
            if line.contains(old) {
                let changed = with(line, old, new);
                let others = [&lines[..number], &[&changed[..]][..], &lines[number + 1..]].concat().join("\n");
                assert!(compare(TOLD, &others).is_err(), "{}", changed);
            }
        }
        let fewer = [&lines[..number], &lines[number + 1..]].concat().join("\n");
        assert!(compare(TOLD, &fewer).is_err(), "without {}", line);
        let more = [&lines[..number], &[*line, *line][..], &lines[number + 1..]].concat().join("\n");
        assert!(compare(TOLD, &more).is_err(), "twice {}", line);
    }
    assert_eq!(fields, 138);
}

/// Words that are others, and what is found.
#[test]
fn words_that_differ() {
    for (old, new, found) in [
        (
            "62 power on",
            "63 power on",
            "told '63 power on, bSlot 00, bSeq 02, bytes 7 to 9 01 00 00': 63 is no such type",
        ),
        (
            "62 power on",
            "63 power off",
            "packet 9, told '63 power off, bSlot 00, bSeq 02, bytes 7 to 9 01 00 00': usbccid.bMessageType is \
             'Message Type: PC_to_RDR_IccPowerOn (0x62)' (62 at 0, 1 bytes, bMessageType), where \
             'Message Type: PC_to_RDR_IccPowerOff (0x63)' (63 at 0, 1 bytes, bMessageType) is told",
        ),
        ("bSeq 02, bytes", "bSeq 03, bytes", "'Sequence: 2' (02 at 6, 1 bytes, bSeq), where 'Sequence: 3' (03"),
        ("bytes 7 to 9 01 00 00", "bytes 7 to 9 00 00 00", "usbccid.bPowerSelect is 'Voltage Level: 5.0 volts (0x01)'"),
        (", bytes 7 to 9 01 00 00", "", "where 'Voltage Level: Automatic Voltage Selection (0x00)'"),
        (", bytes 7 to 9 01 00 01", "", "usbccid.bBWI is 'Block Wait Time Integer: 0x01'"),
        ("bytes 7 to 9 01 00 01", "bytes 7 to 9 01 00 00", "usbccid.wLevelParameter is 'Level Parameter: 0x100'"),
        ("clock stopped", "clock running", "is 'Clock Status: Clock stopped in state L (0x01)'"),
        ("42 failed", "42 success", "where 'Status: 66, Status: No ICC is present, Status: Processed without error '"),
        ("42 failed", "02 success", "usbccid.bStatus is 'Status: 66, Status: No ICC is present, Status: Failed'"),
        (
            "01 success, card inactive",
            "01 success, card active",
            "is 'Status: 1, Status: An ICC is present and inactive,",
        ),
        (
            "01 success, card inactive",
            "01 success, asleep",
            "told '82 parameters, bSlot 00, bSeq 03, protocol number 01': 'asleep'",
        ),
        ("error FE", "error 05", "usbccid.bError is 'Error: 254'"),
        (
            "protocol number 01, 7",
            "protocol number 00, 7",
            "is 'Data Structure Type: Structure for protocol T=1 (0x01)'",
        ),
        ("set     T=1", "set     T=0", "where 'Data Structure Type: Structure for protocol T=0 (0x01)'"),
        (", dwLength 00010203h where 5 bytes came", "", "usbccid.dwLength is 'Packet Length: 66051'"),
        ("where 5 bytes came", "where 6 bytes came", "6 bytes came, and 5 are told"),
        ("7 data bytes 11 10", "7 data bytes 11 11", "data.data is 11100f4d002000, where 11110f4d002000 is told"),
        ("7 data bytes 11 10", "8 data bytes 11 10", "7 bytes are in '8 data bytes"),
        ("A4 select type 06", "A4 select type 05", "data.data is ffa400000106, where ffa4??????05 is told"),
        ("read 240 bytes", "read 241 bytes", "data.data is ffb00010f0, where ffb00010f1 is told"),
        ("from 0010", "from 0011", "data.data is ffb00010f0, where ffb00011f0 is told"),
        ("(240 bytes)", "(241 bytes)", "the number of bytes is 252, where 253 is told"),
        ("FC FD FE FF (240", "FC FD FE FE (240", "data.data is 101112131415161718191a1b1c1d1e1f2021"),
        ("90 00 done", "90 01 done", "data.data is 9000, where 9001 is told"),
        ("3B 04 00 01 02 03, the", "3B 04 00 01 02, the", "the number of bytes is 16, where 15 is told"),
        ("data    11 10 0F 4D 00 20 00", "data    11 10 0F 4D 00 20", "the number of bytes is 17, where 16 is told"),
        ("69 an unsupported type", "69 escape", "69 is no such type"),
        ("69 an unsupported type", "71 an unsupported type", "is 'Message Type: PC_to_RDR_Secure (0x69)'"),
        ("69 an unsupported type", "6B an unsupported type", "6B is no such type"),
        ("69 an unsupported type", "50 an unsupported type", "where 'Message Type: Unknown (0x50)'"),
        ("80 data block", "80 escape", "80 is no such type"),
        ("sent    65 slot status", "sent    81 slot status", "81 is no such type"),
        ("status  42", "stand   42", "there is no status"),
        ("A4 select type 06", "A5 select type 06", "is no command that is known"),
    ] {
        let why = compare(&with(TOLD, old, new), DISSECTED).unwrap_err();
        assert!(why.contains(found), "{} for {}: {}", new, old, why);
    }
}

/// Each digit of the words counts but for these, which tshark does not show: it has the type alone of a 6Dh and of an
/// unsupported one, no data of an 82h, and reads the protocol number of an 82h elsewhere.
#[test]
fn digits_that_tshark_does_not_judge() {
    let mut unjudged = Vec::new();
    let lines: Vec<&str> = TOLD.lines().collect();
    let is_judged = |line: &str| {
        let names =
            ["        sent    ", "        answer  ", "        status  ", "        data    ", "        word    "];
        names.iter().any(|name| line.starts_with(name)) && line.as_bytes()[16].is_ascii_digit()
    };
    for (number, line) in lines.iter().enumerate().filter(|(_, line)| is_judged(line)) {
        let mut left = line.to_string();
        for (place, digit) in line.char_indices().skip(16).filter(|(_, digit)| matches!(digit, '0'..='9' | 'A'..='F')) {
            let other = if digit == '0' { "1" } else { "0" };
            let changed = [&line[..place], other, &line[place + 1..]].concat();
            let told = [&lines[..number], &[&changed[..]][..], &lines[number + 1..]].concat().join("\n");
            if compare(&told, DISSECTED).is_ok() {
                left.replace_range(place..place + 1, "_");
            }
        }
        if left != *line {
            unjudged.push(left.trim().to_string());
        }
    }
    let wanted = [
        "answer  82 parameters, bSlot 00, bSeq 03, protocol number __",
        "data    __ __ __ __ __ __ __",
        "sent    6D reset parameters, bSlot __, bSeq __",
        "answer  82 parameters, bSlot 01, bSeq 04, protocol number __",
        "sent    69 an unsupported type, bSlot __, bSeq __, 2 data bytes __ __",
    ];
    assert_eq!(unjudged, wanted);
}

/// Packets and exchanges are as many, in their order, and each packet is whole.
#[test]
fn packets_and_exchanges() {
    let differs = |told: &str, dissected: &str| compare(told, dissected).unwrap_err();
    let (first, rest) = DISSECTED.split_at(DISSECTED.find("</packet>").unwrap() + 10);
    let packet = &first[first.find("<packet>").unwrap()..];
    let numbers = "10 exchanges are told, and tshark has ";
    assert_eq!(differs(TOLD, &first.replace(packet, rest)), format!("{}19 packets", numbers));
    assert_eq!(differs(TOLD, &[first, packet, rest].concat()), format!("{}21 packets", numbers));
    let escape = &TOLD[TOLD.find("\n        sent    6B").unwrap()..TOLD.find("\n        sent    65").unwrap()];
    assert_eq!(differs(&with(TOLD, escape, ""), DISSECTED), "9 exchanges are told, and tshark has 20 packets");
    let status = &TOLD[TOLD.find("\n        sent    65").unwrap()..TOLD.find("\n        sent    62").unwrap()];
    let swapped = with(&with(TOLD, status, ""), escape, &[status, escape].concat());
    assert!(
        differs(&swapped, DISSECTED).starts_with("packet 5, told '65 slot status, bSlot 00, bSeq 01': the number of")
    );
    let answered = with(
        DISSECTED,
        "direction\" showname=\"0... .... = Direction: OUT (0)\" size=\"1\" pos=\"10\" show=\"0\"",
        "direction\" show=\"1\"",
    );
    assert!(differs(TOLD, &answered).ends_with("the direction is IN, where OUT is told"));

    let line = "  <proto name=\"_ws.malformed\" showname=\"[Malformed Packet: USBCCID]\" size=\"0\" pos=\"59\">";
    let malformed = with(DISSECTED, "</packet>", &format!("{}\n  </proto>\n</packet>", line));
    assert_eq!(differs(TOLD, &malformed), format!("tshark printed what is not known: '{}'", line.trim()));
    let other = with(DISSECTED, "<field name=\"data.data\"", "<field name=\"data.other\"");
    assert!(differs(TOLD, &other).starts_with("tshark printed what is not known: '<field name=\"data.other\""));
    let without = with(DISSECTED, "</packet>", "</packet>\n<packet>\n</packet>");
    assert_eq!(differs(TOLD, &without), "tshark's packet  has nothing of usbccid");
    assert_eq!(differs(TOLD, &with(DISSECTED, "</pdml>", "")), "tshark's output has no end");
    let none = "trace line that is none: trace sing";
    assert_eq!(differs(&[none, "\n", TOLD].concat(), DISSECTED), format!("told '{}'", none));
}

/// A tshark that reads the protocol number of an 82h where it is.
#[test]
fn a_protocol_number_at_its_place() {
    let early = "showname=\"Data Structure Type: Structure for protocol T=0 (0x00)\" size=\"1\" pos=\"56\" show=\"0x00\" value=\"00\"";
    let right =
        "showname=\"Data Structure Type: Structure for protocol T=1 (0x01)\" size=\"1\" pos=\"57\" value=\"01\"";
    let compared = compare(TOLD, &with(DISSECTED, early, right)).unwrap();
    assert_eq!(compared.misplaced, 1);
    let wrong = with(right, "T=1 (0x01)", "T=0 (0x00)").replace("value=\"01\"", "value=\"00\"");
    assert!(compare(TOLD, &with(DISSECTED, early, &wrong)).is_err());
    let elsewhere = with(right, "pos=\"57\"", "pos=\"55\"");
    assert!(compare(TOLD, &with(DISSECTED, early, &elsewhere)).is_err());
}

/// Commands in words, and their bytes as far as they are told.
#[test]
fn commands() {
    for (text, bytes) in [
        ("A4 select type 06", "ff a4 ?? ?? ?? 06"),
        ("A4 select type ", "ff a4 ?? ?? ??"),
        ("01 set the reader page, code 03", "ff 01 ?? ?? ?? 03"),
        ("B0 read 1 byte from 0102", "ff b0 01 02 01"),
        ("B0 read 255 bytes from 0FFFE", "ff b0 ff fe ff"),
        ("B0 read 16 bytes from 0102, then 1 data bytes AA", "ff b0 01 02 10 aa"),
        ("B1 read 2 bytes from 10003", "ff b1 00 03 02"),
        ("B1 read the counter", "ff b1 ?? ?? ??"),
        ("B1 read the counter, then 2 data bytes AA BB", "ff b1 ?? ?? ?? aa bb"),
        ("B2 read 2 bytes of protection bits from 0010", "ff b2 00 10 02"),
        ("D0 write AA BB at 0010", "ff d0 00 10 ?? aa bb"),
        ("D0 write  at 0010", "ff d0 00 10 ??"),
        ("D1 protect AA at 0010", "ff d1 00 10 ?? aa"),
        ("D1 write AA at 1FFFF", "ff d1 ff ff ?? aa"),
        ("20 present code 01 02 03", "ff 20 ?? ?? ?? 01 02 03"),
        ("D2 change the code to 01 02 03", "ff d2 ?? ?? ?? 01 02 03"),
        ("no command: 00 B0 00 00 01", "00 b0 00 00 01"),
        ("0 data bytes", ""),
        ("2 data bytes FF B0", "ff b0"),
    ] {
        let digit = |byte: &Option<u8>| byte.map_or("??".to_string(), |byte| format!("{:02x}", byte));
        let came: Vec<String> = command(text).unwrap().iter().map(digit).collect();
        assert_eq!(came.join(" "), bytes, "{}", text);
    }
    for text in
        ["", "A4", "A4 06", "B0 read 1 byte", "D0 protect AA at 0010", "B0 read x bytes from 0000", "2 data bytes FF"]
    {
        assert!(command(text).is_err(), "{}", text);
    }
    // A long row is cut.
    let digits = |range: std::ops::Range<u8>| range.map(|byte| format!("{:02X}", byte)).collect::<Vec<_>>().join(" ");
    let cut = row(&format!("{} .. {} (25 bytes)", digits(0..16), digits(21..25))).unwrap();
    let wanted: Vec<Option<u8>> = (0..25).map(|byte| Some(byte).filter(|byte| !(16..21).contains(byte))).collect();
    assert_eq!(cut, wanted);
    assert!(row("AA .. BB").is_err() && row("AA .. BB (x bytes)").is_err() && row("aa").is_err() && row("A").is_err());
}

/// A dwLength that lies, and how many of the data tshark shows.
#[test]
fn data_that_are_shown() {
    for (text, count) in [
        ("6F transfer, bSlot 00, bSeq 00, dwLength 00000001h where 3 bytes came, 3 data bytes FF B0 00", 1),
        ("6F transfer, bSlot 00, bSeq 00, dwLength 00000000h where 3 bytes came, 3 data bytes FF B0 00", 0),
        ("6F transfer, bSlot 00, bSeq 00, dwLength FFFFFFFFh where 3 bytes came, 3 data bytes FF B0 00", 3),
        ("6B escape, bSlot 00, bSeq 00, dwLength 00000001h where 3 bytes came, 3 data bytes 01 02 03", 1),
        ("61 set parameters, bSlot 00, bSeq 00, dwLength 00000001h where 2 bytes came, protocol number 00, 2 data bytes 11 00", 2),
        ("61 set parameters, bSlot 00, bSeq 00, dwLength 00000000h where 2 bytes came, protocol number 00, 2 data bytes 11 00", 0),
        ("65 slot status, bSlot 00, bSeq 00, 2 data bytes 11 00", 0),
        ("69 an unsupported type, bSlot 00, bSeq 00, 2 data bytes 11 00", 0),
    ] {
        assert_eq!(message(text).unwrap().shown_data().len(), count, "{}", text);
    }
    let status = "00 success, card active, error 00 none";
    let short =
        answer("80 data block, bSlot 00, bSeq 00, dwLength 1 where 2 bytes came", status, None, Some("90 00 done"));
    assert_eq!(short.unwrap().shown_data(), [Some(0x90)]);
    let text =
        |data: &str| answer("83 escape, bSlot 00, bSeq 00", status, Some(data), None).map(|words| words.data.len());
    assert_eq!(text("52 31, \"R1\""), Ok(2));
    assert_eq!(text("52 31, \"R2\""), Err("'52 31, \"R2\"' is another text".to_string()));
}
