use super::*;

/// The records of a script, as they stand on the session program's input.
fn records(text: &str) -> Vec<Vec<u8>> {
    match script(Over::Session, text) {
        Ok(steps) => steps
            .iter()
            .filter_map(|step| match step {
                Step::Record { record, .. } => Some(record.bytes()),
                _ => None,
            })
            .collect(),
        Err(fault) => panic!("line {}: {}", fault.line, fault.text),
    }
}

/// The body of the one record of a script.
fn body(text: &str) -> Vec<u8> {
    let records = records(text);
    assert_eq!(records.len(), 1, "{}", text);
    let length = usize::from(u16::from_le_bytes([records[0][2], records[0][3]]));
    assert_eq!(records[0].len(), 4 + length);
    records[0][4..].to_vec()
}

fn image(line: &str) -> Vec<u8> {
    body(line)[1..].to_vec()
}

/// The body of the one insertion of a script over the trial program.
fn inserted(text: &str) -> Vec<u8> {
    match script(Over::Trial, text).map(|steps| steps.into_iter().next()) {
        Ok(Some(Step::Record { record: Record::Insert { body, .. }, .. })) => body,
        Ok(_) => panic!("'{}' is no insertion", text),
        Err(fault) => panic!("line {}: {}", fault.line, fault.text),
    }
}

fn fault(text: &str) -> (usize, String) {
    fault_over(Over::Session, text)
}

fn fault_over(over: Over, text: &str) -> (usize, String) {
    match script(over, text) {
        Ok(_) => panic!("'{}' has no fault", text),
        Err(fault) => (fault.line, fault.text),
    }
}

fn bytes(text: &str) -> Vec<u8> {
    all_bytes(&text.split_whitespace().collect::<Vec<_>>()).unwrap()
}

#[test]
fn the_session_of_the_paper() {
    let text = "seq 07\nstatus\nremove\nraw 65";
    assert_eq!(
        records(text),
        [bytes("4F 4D 0A 00 65 00 00 00 00 00 07 00 00 00"), bytes("43 4F 00 00"), bytes("4F 4D 01 00 65")]
    );
}

#[test]
fn messages() {
    let text = "power on\npower off\nstatus\nselect 06\npage 05\nsend FF B0 00 00 04\nsend";
    let wanted = [
        "62 00000000 00 00 000000",
        "63 00000000 00 01 000000",
        "65 00000000 00 02 000000",
        "6F 06000000 00 03 000000 FF A4 00 00 01 06",
        "6F 06000000 00 04 000000 FF 01 00 00 01 05",
        "6F 05000000 00 05 000000 FF B0 00 00 04",
        "6F 00000000 00 06 000000",
    ];
    for (record, wanted) in records(text).iter().zip(wanted) {
        assert_eq!(record[..2], [0x4f, 0x4d]);
        assert_eq!(record[4..], bytes(wanted));
    }
    assert_eq!(records(text).len(), wanted.len());
}

#[test]
fn parameters() {
    let lines = [
        "parameters",
        "parameters reset",
        "parameters t0 1100000A00",
        "slot 02\nparameters t1 18 10 FF 4D 00 FE 00",
        "parameters t0",
        "parameters t1 11*9",
        "status",
    ];
    let wanted = [
        "6C 00000000 00 00 000000",
        "6D 00000000 00 01 000000",
        "61 05000000 00 02 000000 11 00 00 0A 00",
        "61 07000000 02 03 010000 18 10 FF 4D 00 FE 00",
        // The number of bytes is the writer's own.
        "61 00000000 00 04 000000",
        "61 09000000 00 05 010000 11*9",
        "65 00000000 00 06 000000",
    ];
    let records = records(&lines.join("\n"));
    for (record, wanted) in records.iter().zip(wanted) {
        assert_eq!(record[..2], [0x4f, 0x4d]);
        assert_eq!(record[4..], bytes(wanted));
    }
    assert_eq!(records.len(), wanted.len());
}

#[test]
fn expected_sets() {
    let text = "parameters\nexpect t0 1100 00 0A00\nexpect t1 11 10 00*5";
    let sets: Vec<(u8, Vec<u8>)> = script(Over::Session, text)
        .unwrap_or_default()
        .into_iter()
        .filter_map(|step| match step {
            Step::Expect { expected: Expected::Set(protocol, set), .. } => Some((protocol, set)),
            _ => None,
        })
        .collect();
    assert_eq!(sets, [(0, bytes("11 00 00 0A 00")), (1, bytes("11 10 00*5"))]);
}

#[test]
fn sequence_and_slot() {
    let text = "status\nraw 65\nstatus\nseq FE\nslot 05\nstatus\nstatus\nstatus";
    let named: Vec<Vec<u8>> =
        records(text).iter().filter(|record| record.len() == 14).map(|record| record[9..11].to_vec()).collect();
    // Slot, then sequence: `raw` counts for nothing, and after FFh comes 00h.
    assert_eq!(named, [[0, 0], [0, 1], [5, 0xfe], [0, 0xff], [0, 0]]);
}

#[test]
fn select_alone_takes_the_type_of_the_last_card() {
    for (card, own) in [
        ("i2c1", 1),
        ("i2c16", 1),
        ("i2c32", 2),
        ("i2c256", 2),
        ("sle4428", 5),
        ("sle4418", 5),
        ("sle4442", 6),
        ("sle4432", 6),
    ] {
        let records = records(&format!("insert i2c64\ninsert {}\nselect", card));
        assert_eq!(records[2].last(), Some(&own), "{}", card);
    }
    assert_eq!(fault("select"), (1, "'select' alone needs an insert of a card before it".to_string()));
    for card in ["i2c512", "i2c1024"] {
        let steps = script(Over::Trial, &format!("insert sle4442\ninsert {}\nselect", card)).unwrap_or_default();
        match steps.last() {
            Some(Step::Record { record, .. }) => assert_eq!(record.message().last(), Some(&2), "{}", card),
            _ => panic!("{} has no select", card),
        }
    }
}

#[test]
fn cards_by_name_and_by_number() {
    let cards = [
        ("i2c1", 1, 128),
        ("i2c2", 2, 256),
        ("i2c4", 3, 512),
        ("i2c8", 4, 1024),
        ("i2c16", 5, 2048),
        ("i2c32", 6, 4096),
        ("i2c64", 7, 8192),
        ("i2c128", 8, 16384),
        ("i2c256", 9, 32768),
        ("sle4428", 20, 1152),
        ("sle4418", 21, 1152),
        ("sle4442", 30, 264),
        ("sle4432", 31, 264),
    ];
    for (name, number, length) in cards {
        let card = body(&format!("insert {}", name));
        assert_eq!((card[0], card.len()), (number, 1 + length), "{}", name);
        assert_eq!(card, body(&format!("insert kind {}", number)));
        assert_eq!(card, inserted(&format!("insert {}", name)));
    }
    for (name, number, length) in [("i2c512", 10, 65536), ("i2c1024", 11, 131_072)] {
        let card = inserted(&format!("insert {}", name));
        assert_eq!((card[0], card.len()), (number, 1 + length), "{}", name);
        assert_eq!(card, inserted(&format!("insert kind {}", number)));
    }
    assert_eq!(body("insert nothing"), []);
    assert_eq!(body("insert kind 77"), [77]);
    assert_eq!(body("insert kind 0 image 01 02*3"), [0, 1, 2, 2, 2]);
    assert_eq!(inserted("insert kind 0 image 01 02*3"), [0, 1, 2, 2, 2]);
}

/// Over the session program the large kinds are unknown ones: no card by name, and by number they have
/// the image that is given.
#[test]
fn the_large_cards_over_the_session_program() {
    for (name, number) in [("i2c512", 10), ("i2c1024", 11)] {
        let text = format!(
            "'{}' is played with './play --trial': the session program takes kind {} as unknown, since a record's \
             body holds at most 32,769 bytes, a kind byte and an image of 32,768",
            name, number
        );
        assert_eq!(fault(&format!("insert {}", name)), (1, text.clone()));
        assert_eq!(fault(&format!("insert {} fill 00", name)), (1, text));
        assert_eq!(body(&format!("insert kind {}", number)), [number]);
        assert_eq!(body(&format!("insert kind {} image 01 02*3", number)), [number, 1, 2, 2, 2]);
        assert_eq!(body(&format!("insert kind {} image FF*32768", number)).len(), 32_769);
        let text = format!("kind {}, which the session program takes as unknown, has the option 'image' alone", number);
        assert_eq!(fault(&format!("insert kind {} fill 00", number)), (1, text));
        let text = "a record holds at most 65535 bytes, and these are 65537".to_string();
        assert_eq!(fault(&format!("insert kind {} image FF*65536", number)), (1, text));
        // They leave the type that `select` alone takes.
        let records = records(&format!("insert sle4442\ninsert kind {}\nselect", number));
        assert_eq!(records[2].last(), Some(&6));
    }
}

#[test]
fn images_of_the_large_cards() {
    let card = inserted("insert i2c1024 fill 5C memory 11 22 at FFFF AA BB at 1FFFF CC at 00002 33");
    assert_eq!(card[1..5], [0x11, 0x22, 0x33, 0x5c]);
    assert_eq!(card[1 + 0xfffe..1 + 0x10002], [0x5c, 0xaa, 0xbb, 0x5c]);
    assert_eq!(card[1 + 0x1fffe..], [0x5c, 0xcc]);
    let card = inserted("insert i2c512 fill 5C at 0FFFF CC");
    assert_eq!(card[1 + 0xfffe..], [0x5c, 0xcc]);
    assert_eq!(inserted("insert i2c1024 short 1").len(), 131_072);
    assert_eq!(inserted("insert i2c512 long 65536").len(), 131_073);
    assert_eq!(inserted("insert i2c1024 image 01*131072"), [&[11][..], &[1; 131_072]].concat());
}

#[test]
fn changed_places() {
    let text = "remove\nexpect changed 1FFFF,0..2,1\nexpect changed nothing";
    let places: Vec<Vec<usize>> = script(Over::Trial, text)
        .unwrap_or_default()
        .into_iter()
        .filter_map(|step| match step {
            Step::Expect { expected: Expected::Changed(places), .. } => Some(places),
            _ => None,
        })
        .collect();
    assert_eq!(places, [vec![0, 1, 2, 0x1ffff], vec![]]);
}

#[test]
fn expected_pages() {
    let text = "remove\nexpect page 8 not chosen\nexpect page 16 chosen\nexpect page 32 not chosen\n\
                expect page 64 chosen\nexpect page 128 chosen";
    let pages: Vec<(u8, bool)> = script(Over::Trial, text)
        .unwrap_or_default()
        .into_iter()
        .filter_map(|step| match step {
            Step::Expect { expected: Expected::Page(page, chosen), .. } => Some((page, chosen)),
            _ => None,
        })
        .collect();
    assert_eq!(pages, [(8, false), (16, true), (32, false), (64, true), (128, true)]);
}

#[test]
fn images() {
    let plain = image("insert sle4442");
    assert_eq!(plain[..260], [0xff; 260]);
    assert_eq!(plain[260..], [0x07, 0xff, 0xff, 0xff]);
    let card =
        image("insert sle4442 fill 11 memory A2 13 at 00FF 77 counter 05 code 112233 protected 0000..0002,0009,001F");
    assert_eq!(card[..4], [0xa2, 0x13, 0x11, 0x11]);
    assert_eq!(card[254..], [0x11, 0x77, 0xf8, 0xfd, 0xff, 0x7f, 0x05, 0x11, 0x22, 0x33]);
    let card = image("insert sle4428 fill 00 counter FE code AABB protected 03FD");
    assert_eq!(card[0x3fc..0x400], [0x00, 0xfe, 0xaa, 0xbb]);
    assert_eq!(card[0x400..0x47f], [0xff; 127]);
    assert_eq!(card[0x47f], 0xdf);
    assert_eq!(image("insert i2c1 fill 5A short 3"), [0x5a; 125]);
    assert_eq!(image("insert i2c1 fill 5A long 2")[126..], [0x5a, 0x5a, 0, 0]);
    assert_eq!(image("insert sle4442 fill 00 image 01 02"), [1, 2]);
}

#[test]
fn images_without_a_code() {
    let plain = image("insert sle4418");
    assert_eq!(plain, [0xff; 1152]);
    let card = image("insert sle4418 fill 5C at 03FD 7F AA BB protected 0000,03FD..03FF");
    assert_eq!(card[0x3fc..0x400], [0x5c, 0x7f, 0xaa, 0xbb]);
    assert_eq!((card[0x400], card[0x47f]), (0xfe, 0x1f));
    assert_eq!(card[0x401..0x47f], [0xff; 126]);
    let plain = image("insert sle4432");
    assert_eq!(plain[..260], [0xff; 260]);
    assert_eq!(plain[260..], [0; 4]);
    let card = image("insert sle4432 fill 5C memory A2 13 at 00FF 77 protected 0000..0002,001F");
    assert_eq!(card[..4], [0xa2, 0x13, 0x5c, 0x5c]);
    assert_eq!(card[254..], [0x5c, 0x77, 0xf8, 0xff, 0xff, 0x7f, 0, 0, 0, 0]);
    // An image that is none of an SLE4432's.
    assert_eq!(image("insert sle4432 image FF*260 00*3 01")[260..], [0, 0, 0, 1]);
}

#[test]
fn bytes_as_they_stand_end_the_input() {
    assert_eq!(records("bytes 4F 4D 0A"), [[0x4f, 0x4d, 0x0a]]);
    assert_eq!(fault("bytes 4F\nstatus"), (2, "the input has ended with 'bytes'".to_string()));
}

#[test]
fn hex_and_comments() {
    let text = "send FFB0 0000*2 04 # and so on\n\n   # nothing\nsay # stays in a text";
    assert_eq!(fault(text), (1, "'0000*2' is not bytes in hex".to_string()));
    assert_eq!(records("send FFB0 00*2 04 # and so on")[0][14..], [0xff, 0xb0, 0, 0, 4]);
    match script(Over::Session, "say a # b").ok().and_then(|steps| steps.into_iter().next()) {
        Some(Step::Say(text)) => assert_eq!(text, "a # b"),
        _ => panic!("say says something"),
    }
}

#[test]
fn faults_name_their_line() {
    for (line, text) in [
        ("sing", "'sing' is no word of the language (docs/SCRIPTS.md has it)"),
        ("power", "it is 'power on' or 'power off'"),
        ("status now", "'now' is too much"),
        ("parameters t2 00", "it is 'parameters' alone, or with 'reset', 't0 HEX' or 't1 HEX'"),
        ("parameters 1100000A00", "it is 'parameters' alone, or with 'reset', 't0 HEX' or 't1 HEX'"),
        ("parameters reset now", "'now' is too much"),
        ("parameters t0 11 0", "'0' is not bytes in hex"),
        ("parameters t1 reset", "'reset' is not bytes in hex"),
        ("parameters t0 00*65526", "a record holds at most 65535 bytes, and these are 65536"),
        ("seq 1", "'1' is not bytes in hex"),
        ("seq 01 02", "'seq' takes one byte in hex"),
        ("insert", "insert what? A card as sle4442, or 'nothing'"),
        ("insert sle4443", "'sle4443' is no card"),
        ("insert kind 256", "'256' is no kind from 0 to 255"),
        ("insert kind 77 fill 00", "kind 77, which is unknown, has the option 'image' alone"),
        ("insert i2c1 page 8", "'page' is no option of insert"),
        ("insert i2c1 counter 07", "I2C of 1 kbit has no code and no counter"),
        ("insert i2c1 protected 0000", "byte 0000 of I2C of 1 kbit has no protection bit"),
        ("insert sle4418 code AABB", "SLE4418 has no code and no counter"),
        ("insert sle4418 counter FF", "SLE4418 has no code and no counter"),
        ("insert sle4418 protected 0400", "byte 0400 of SLE4418 has no protection bit"),
        ("insert sle4418 at 03FF 01 02", "memory bytes at 03FF pass the 1024 bytes of SLE4418"),
        ("insert sle4432 code 112233", "SLE4432 has no code and no counter"),
        ("insert kind 31 counter 00", "SLE4432 has no code and no counter"),
        ("insert sle4432 counter 00 image 00*264", "SLE4432 has no code and no counter"),
        ("insert sle4432 protected 0020", "byte 0020 of SLE4432 has no protection bit"),
        ("insert sle4432 at 0104 01", "memory bytes at 0104 pass the 256 bytes of SLE4432"),
        ("insert sle4442 code 1122", "the code of SLE4442 has 3 bytes, and these are 2"),
        ("insert sle4442 code", "bytes in hex are missing after 'code'"),
        ("insert sle4442 counter", "something is missing after 'counter'"),
        ("insert sle4442 at 00FF 01 02", "memory bytes at 00FF pass the 256 bytes of SLE4442"),
        ("insert sle4442 at 12345 01", "memory bytes at 12345 pass the 256 bytes of SLE4442"),
        ("insert sle4442 at 012345 01", "'012345' is no address in hex"),
        ("insert sle4442 at +1 01", "'+1' is no address in hex"),
        ("insert sle4442 at 0x1 01", "'0x1' is no address in hex"),
        ("insert sle4442 protected 0020", "byte 0020 of SLE4442 has no protection bit"),
        ("insert sle4442 protected 10000", "byte 10000 of SLE4442 has no protection bit"),
        ("insert sle4442 protected 0000,", "'' is no address in hex"),
        ("insert sle4442 protected 0000,0003..0002", "'0003..0002' ends before it begins"),
        ("insert sle4442 short 265", "the image has only 264 bytes"),
        ("insert i2c1 long 200001", "'200001' is no number of bytes"),
        ("raw 00*200001", "'00*200001' is not bytes in hex"),
        ("raw 00*65536", "a record holds at most 65535 bytes, and these are 65536"),
        ("expect 90 00", "there is no answer to expect anything of yet"),
        ("remove\nexpect", "expect what?"),
        ("remove\nexpect ..", "expect which bytes?"),
        ("remove\nexpect t0", "expect which bytes?"),
        ("remove\nexpect t1 11 1", "'1' is not bytes in hex"),
        ("remove\nexpect t2 11", "'t2' is not bytes in hex"),
        ("remove\nexpect refused 6", "'6' is no number from 1 to 5"),
        ("remove\nexpect error", "'expect error' takes one byte in hex"),
        (
            "remove\nexpect changed 0000",
            "'expect changed' is for './play --trial': the session program tells nothing of the image",
        ),
        (
            "remove\nexpect page 8 not chosen",
            "'expect page' is for './play --trial': the session program tells nothing of the slot record",
        ),
    ] {
        assert_eq!(fault(&format!("# first\n{}", line)), (1 + line.lines().count(), text.to_string()), "{}", line);
    }
}

const EXPECT_PAGE: &str = "it is 'expect page' with a number of bytes, and then 'chosen' or 'not chosen'";

/// What has no meaning over the trial program, and its limits.
#[test]
fn faults_over_the_trial_program() {
    for (line, text) in [
        ("bytes 4F", "'bytes' is for the session program: the trial program is given calls"),
        ("insert nothing", "'insert nothing' is a record for the session program: an insertion call has a kind"),
        ("remove\nexpect bad", "'expect bad' is for the session program: what a script calls for is never bad"),
        ("remove\nexpect changed", "it is 'expect changed' with a list of addresses, or with 'nothing'"),
        ("remove\nexpect changed 0000 0001", "it is 'expect changed' with a list of addresses, or with 'nothing'"),
        ("remove\nexpect changed 0001..0000", "'0001..0000' ends before it begins"),
        ("remove\nexpect changed all", "'all' is no address in hex"),
        ("remove\nexpect page", EXPECT_PAGE),
        ("remove\nexpect page 32", EXPECT_PAGE),
        ("remove\nexpect page chosen", EXPECT_PAGE),
        ("remove\nexpect page 32 by type", EXPECT_PAGE),
        ("remove\nexpect page 32 chosen now", EXPECT_PAGE),
        ("remove\nexpect page 32 not", EXPECT_PAGE),
        ("remove\nexpect page 03 chosen", "'03' is no reader page: 8, 16, 32, 64 or 128"),
        ("remove\nexpect page 256 chosen", "'256' is no reader page: 8, 16, 32, 64 or 128"),
        ("remove\nexpect page +8 not chosen", "'+8' is no reader page: 8, 16, 32, 64 or 128"),
        ("remove\nexpect page not chosen", "'not' is no reader page: 8, 16, 32, 64 or 128"),
        ("expect page 8 not chosen", "there is no answer to expect anything of yet"),
        ("raw 00*601", "the trial program takes a message of at most 600 bytes, and these are 601"),
        ("send 00*591", "the trial program takes a message of at most 600 bytes, and these are 601"),
        ("insert i2c1024 long 1", "the trial program takes an image of at most 131072 bytes, and these are 131073"),
        ("insert kind 77 fill 00", "kind 77, which is unknown, has the option 'image' alone"),
        ("insert i2c512 at 10000 01", "memory bytes at 10000 pass the 65536 bytes of I2C of 512 kbit"),
        ("insert i2c1024 at 1FFFF 01 02", "memory bytes at 1FFFF pass the 131072 bytes of I2C of 1024 kbit"),
        ("insert i2c1024 at 20000 01", "memory bytes at 20000 pass the 131072 bytes of I2C of 1024 kbit"),
        ("insert i2c1024 protected 1FFFF", "byte 1FFFF of I2C of 1024 kbit has no protection bit"),
        ("insert kind 10 code 112233", "I2C of 512 kbit has no code and no counter"),
        ("sing", "'sing' is no word of the language (docs/SCRIPTS.md has it)"),
    ] {
        let (wanted, text) = (1 + line.lines().count(), text.to_string());
        assert_eq!(fault_over(Over::Trial, &format!("# first\n{}", line)), (wanted, text), "{}", line);
    }
    // A message and an image that just fit.
    assert!(script(Over::Trial, "raw 00*600\nsend 00*590\ninsert i2c1024 long 0").is_ok());
}
