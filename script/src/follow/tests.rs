use super::*;

/// A raw record with these first bytes, in hex.
fn raw(first: &str) -> String {
    format!("{:0<64}", first)
}

/// What is told of some lines, and whether each trace line was one.
fn told(lines: &str) -> (String, bool) {
    let mut output = Vec::new();
    let all_read = run(lines.as_bytes(), &mut output, None::<Capture<Vec<u8>>>).unwrap();
    (String::from_utf8(output).unwrap(), all_read)
}

const STATUS: &str = "trace message 65000000000007000000 81000000000007020001 ";
const STATUS_TOLD: &str = "
        sent    65 slot status, bSlot 00, bSeq 07
        answer  81 slot status, bSlot 00, bSeq 07, clock stopped
        status  02 success, no card, or another slot, error 00 none
";

/// A card goes in, a message changes its image, and it goes out.
#[test]
fn a_visit() {
    let image = "00".repeat(131_072);
    let lines = [
        format!("{}{}", STATUS, raw("00000008")),
        format!("trace in 11 {} {}", raw("0b000008"), image),
        format!(
            "trace message 6f070000000000000000ffd0ffff020a0b 800200000000000000009000 {} ffff=0a 10000=0b",
            raw("0b010220")
        ),
        format!("trace message 6f050000000001000000ffb1000001 800300000000010000000b9000 {}", raw("0b010220")),
        format!("trace out {}", raw("00000008")),
    ];
    let wanted = [
        STATUS_TOLD,
        "
        sent    insert: I2C of 1024 kbit, kind 11, image of 131072 bytes
        line    in 0, the card is in
        slot    kind 11, inactive, no type, page 8, not chosen, closed, tries left 0, protected 0
",
        "
        sent    6F transfer, bSlot 00, bSeq 00, D0 write 0A 0B at 0FFFF
        answer  80 data block, bSlot 00, bSeq 00
        status  00 success, card active, error 00 none
        word    90 00 done
        slot    kind 11, active, type 02, page 32, not chosen, closed, tries left 0, protected 0
        changed 0FFFF..10000 (2 bytes)
",
        "
        sent    6F transfer, bSlot 00, bSeq 01, B1 read 1 byte from 10000
        answer  80 data block, bSlot 00, bSeq 01
        status  00 success, card active, error 00 none
        data    0B
        word    90 00 done
",
        "
        sent    remove
        line    out 0, the slot is empty
        slot    no card, inactive, no type, page 8, not chosen, closed, tries left 0, protected 0
",
    ];
    assert_eq!(told(&(lines.join("\n") + "\n")), (wanted.concat(), true));
}

/// What the reader is not asked or does not take.
#[test]
fn without_the_reader() {
    for (line, wanted) in [
        (
            "escape 6b01000000000100000002 830200000000010200005220",
            "
        sent    6B escape, bSlot 00, bSeq 01, 1 data bytes 02
        answer  83 escape, bSlot 00, bSeq 01
        status  02 success, no card, or another slot, error 00 none
        data    52 20, \"R \"
        device  answered this itself: the reader was not asked
",
        ),
        (
            "refused 650000 2",
            "
        sent    a message of only 3 bytes: 65 00 00
        line    msg 2, turned down: the message is under 10 bytes
        answer  none: the host got 03 15 16 (NAK)
",
        ),
        (
            "refused - 2",
            "
        sent    a message of only 0 bytes: \n        line    msg 2, turned down: the message is under 10 bytes
        answer  none: the host got 03 15 16 (NAK)
",
        ),
        (
            "frame 55",
            "
        sent    no frame, 1 bytes: 55
        answer  none: the host got 03 15 16 (NAK)
",
        ),
        (
            "frame 03066500000000000700000068",
            "
        sent    a frame with check byte 68, where 67 is right: 03 06 65 00 00 00 00 00 07 00 00 00 68
        answer  none: the host got 03 15 16 (NAK)
",
        ),
    ] {
        assert_eq!(told(&format!("trace {}\n", line)), (wanted.to_string(), true));
    }
}

#[test]
fn frames() {
    for (frame, text) in [
        ("-", "no frame, 0 bytes:"),
        ("0306", "no frame, 2 bytes: 03 06"),
        ("030667", "no frame, 3 bytes: 03 06 67"),
        // Right as it is, too short, too long, another start.
        ("03066500000000000700000067", "no frame, 13 bytes: 03 06 65 00 00 00 00 00 07 00 00 00 67"),
        ("030665000000000007000062", "no frame, 12 bytes: 03 06 65 00 00 00 00 00 07 00 00 62"),
        ("0306650000000000070000000000", "no frame, 14 bytes: 03 06 65 00 00 00 00 00 07 00 00 00 00 00"),
        ("03156500000000000700000067", "no frame, 13 bytes: 03 15 65 00 00 00 00 00 07 00 00 00 67"),
    ] {
        let parts = Follow::default().line(&format!("frame {}", frame)).unwrap().parts;
        assert_eq!(parts[0], ("sent", text.to_string()));
    }
}

/// Lines that are no trace lines stay as they are, whatever their bytes and their end.
#[test]
fn other_lines() {
    for text in ["", "\n", "ready\n", "a\r\n\n\nb", " trace out\n", "trace\n", "traced\n", "Trace out 00"] {
        assert_eq!(told(text), (text.to_string(), true));
    }
    let mut output = Vec::new();
    let bytes = &b"\xff\xfe\ntrace frame 55"[..];
    assert!(run(bytes, &mut output, None::<Capture<Vec<u8>>>).unwrap());
    let end = "        answer  none: the host got 03 15 16 (NAK)\n".as_bytes();
    assert!(output.starts_with(b"\xff\xfe\n\n        sent    no frame") && output.ends_with(end));
}

/// A trace line that is none is told, and those behind it are told as if it were not there.
#[test]
fn lines_that_are_none() {
    let empty = raw("00000008");
    let (message, answer) = ("65000000000007000000", "81000000000007020001");
    for fields in [
        String::new(),
        "sing".to_string(),
        "out".to_string(),
        "out -".to_string(),
        format!("out {}00", empty),
        format!("out {} -", empty),
        format!("out  {}", empty),
        format!("in 30 {}", empty),
        format!("in 256 {} 00", empty),
        format!("in 30 {} ", empty),
        format!("in 30 {} 0", empty),
        format!("message {} {}", message, answer),
        format!("message {} {} {} ", message, answer, empty),
        format!("message 650000 {} {}", answer, empty),
        format!("message {} 810000 {}", message, empty),
        format!("message {} - {}", message, empty),
        format!("message {} {} {} 0000=01", message, answer, empty), // there is no card
        format!("message {} {} {} 0000", message, answer, empty),
        format!("message {} {} {}", message, answer, raw("0000000g")),
        format!("refused {}", message),
        "refused 65 x".to_string(),
        format!("escape {}", message),
        format!("escape {} 83", message),
        "frame".to_string(),
        "frame 5".to_string(),
        "frame 55 55".to_string(),
    ] {
        let (text, all_read) = told(&format!("trace {}\n{}{}\n", fields, STATUS, empty));
        assert_eq!(text, format!("\ntrace line that is none: trace {}\n{}", fields, STATUS_TOLD));
        assert!(!all_read);
    }
}

/// Each exchange goes into the capture, and nothing else does.
#[test]
fn captured() {
    let empty = raw("00000008");
    let (message, answer) = ("65000000000007000000", "81000000000007020001");
    let lines = [
        "ready".to_string(),
        format!("trace message {} {} {}", message, answer, empty),
        "trace escape 6b000000000001000000 83000000000001020000".to_string(),
        "trace refused 650000 2".to_string(),
        "trace frame 55".to_string(),
        format!("trace in 1 {} {}", raw("01000008"), "00".repeat(128)),
        format!("trace out {}", empty),
        "trace sing".to_string(),
    ];
    let mut file = Vec::new();
    let capture = Capture::start(&mut file).unwrap();
    assert!(!run((lines.join("\n") + "\n").as_bytes(), Vec::new(), Some(capture)).unwrap());
    let mut wanted = Vec::new();
    let mut capture = Capture::start(&mut wanted).unwrap();
    capture.exchange(&hex::bytes(message).unwrap(), &hex::bytes(answer).unwrap()).unwrap();
    let escape = [0x6b, 0, 0, 0, 0, 0, 1, 0, 0, 0];
    capture.exchange(&escape, &[0x83, 0, 0, 0, 0, 0, 1, 2, 0, 0]).unwrap();
    assert!(file == wanted);
}
