use super::*;

fn heard(line: &str) -> Heard {
    Heard { line: line.to_string(), ..Heard::default() }
}

/// Each expectation, a line that meets it and lines that do not.
#[test]
fn expectations() {
    let read = "msg 0 80030000000009000000a29000";
    let mute = "msg 0 8000000000000942fe00";
    let done = "msg 0 81000000000009000000";
    let set = "msg 0 820500000000090100001100000a00";
    let other_set = "msg 0 820700000000090000011110004d002000";
    let no_set = "msg 0 8200000000000942fe00";
    let all = [
        (Expected::Data(vec![0xa2, 0x90, 0x00]), read, vec![done, mute, "msg 0 80030000000009000000a29001", "bad"]),
        (Expected::DataEnd(vec![0x90, 0x00]), read, vec![done, mute, "msg 0 80030000000009000000a29001"]),
        (Expected::Nothing, done, vec![read, mute, "msg 2"]),
        (Expected::Error(0xfe), mute, vec![done, read, "msg 0 80000000000009420100", "msg 2"]),
        (Expected::State(0), read, vec![mute, "msg 0 81000000000009010001", "in 0"]),
        (Expected::State(1), "msg 0 81000000000009010001", vec![done, mute]),
        (Expected::State(2), mute, vec![done, read]),
        (
            Expected::Set(0, vec![0x11, 0x00, 0x00, 0x0a, 0x00]),
            set,
            vec![
                other_set,
                no_set,
                "msg 0 820500000000090100011100000a00", // another protocol number
                "msg 0 800500000000090100001100000a00", // no answer of parameters
                "msg 0 820500000000094100001100000a00", // failed
                "msg 0 820500000000090100001200000a00",
                "msg 0 820600000000090100001100000a0000",
                "msg 2",
            ],
        ),
        (Expected::Set(1, vec![0x11, 0x10, 0x00, 0x4d, 0x00, 0x20, 0x00]), other_set, vec![set, no_set, read]),
        (Expected::Data(vec![0x11, 0x00, 0x00, 0x0a, 0x00]), set, vec![other_set, no_set]),
        (Expected::Error(0xfe), no_set, vec![set]),
        (Expected::Answer(vec![0x81, 0, 0, 0, 0, 0, 9, 0, 0, 0]), done, vec![read, "msg 0 81000000000009000001"]),
        (Expected::Refused(2), "msg 2", vec!["msg 3", "in 3", "msg 0", read, "bad"]),
        (Expected::Refused(5), "in 5", vec!["in 3", "in 0", "msg 2"]),
        (Expected::Done, "in 0", vec!["in 3", "bad", read]),
        (Expected::Done, "out 0", vec!["out 1", "msg 0"]),
        (Expected::Bad, "bad", vec!["in 0", "bad ", ""]),
        (Expected::Line("msg 2".to_string()), "msg 2", vec!["msg 3", "msg 2 "]),
    ];
    for (expected, met, unmet) in &all {
        assert!(heard(met).meets(expected), "{}", met);
        for line in unmet {
            assert!(!heard(line).meets(expected), "{} is not {}", line, met);
        }
    }
}

/// An answer that is cut or is no hex meets nothing.
#[test]
fn lines_that_are_no_answers() {
    for line in
        ["msg 0 8", "msg 0 zz000000000000000000", "msg 0 800000", "msg 0 é000000000000000000", "msg 0 ", "msg", ""]
    {
        assert!(!heard(line).meets(&Expected::Nothing), "{}", line);
        assert!(!heard(line).meets(&Expected::State(0)), "{}", line);
    }
}

/// A set is told where it is sent and where it is answered.
#[test]
fn sets_in_words() {
    let message = vec![0x61, 5, 0, 0, 0, 0, 9, 0, 0, 0, 0x11, 0x00, 0x00, 0x0a, 0x00];
    let line = "msg 0 820500000000090100001100000a00".to_string();
    let heard = Heard { message: message.clone(), line, ..Heard::default() };
    let parts = heard.told(&Record::Message(message));
    let names: Vec<&str> = parts.iter().map(|(name, _)| *name).collect();
    assert_eq!(names, ["sent", "set", "answer", "status", "data", "set"]);
    assert!(parts[1].1.starts_with("T=0: F 372"), "{}", parts[1].1);
    assert_eq!(parts[1], parts[5]);
}

#[test]
fn lines_in_words() {
    for (record, line, text) in [
        (Record::Remove, "out 0", "out 0, the slot is empty"),
        (Record::Remove, "bad", "bad, and the session ends"),
        (Record::Message(vec![0x65]), "msg 2", "msg 2, turned down: the message is under 10 bytes"),
        (Record::Insert { told: "a card".to_string(), body: vec![1] }, "in 0", "in 0, the card is in"),
        (
            Record::Insert { told: "a card".to_string(), body: vec![31] },
            "in 3",
            "in 3, turned down: the kind is unknown, or the image is not one of it",
        ),
        (
            Record::Insert { told: "a card".to_string(), body: vec![1] },
            "in 5",
            "in 5, turned down: a card is in already",
        ),
        (Record::Loose(vec![0x4f]), "bad", "bad, and the session ends"),
    ] {
        let parts = heard(line).told(&record);
        assert_eq!(parts.len(), 2);
        assert_eq!(parts[0].0, "sent");
        assert_eq!(parts[1], ("line", text.to_string()));
    }
}

/// Over the trial program: which image bytes changed, in the line and as it is expected and told.
#[test]
fn changes() {
    let message = vec![0x6f, 7, 0, 0, 0, 0, 9, 0, 0, 0, 0xff, 0xd1, 0xff, 0xfe, 0x02, 0x0a, 0x0b];
    let heard = Heard {
        message: message.clone(),
        line: "msg 0 800200000000090000009000".to_string(),
        kind: 11,
        page: Some((32, 0)),
        slot: None,
        changed: vec![(0x0007, vec![0x01]), (0xffff, vec![0x0a, 0x0b]), (0x1fffe, vec![0xff])],
    };
    let line = "msg 0 800200000000090000009000 0007=01 ffff=0a0b 1fffe=ff";
    assert_eq!(heard.whole_line(), line);
    assert!(heard.meets(&Expected::Line(line.to_string())));
    assert!(!heard.meets(&Expected::Line(heard.line.clone())));
    assert!(heard.meets(&Expected::Data(vec![0x90, 0x00])));
    assert!(heard.meets(&Expected::Changed(vec![0x0007, 0xffff, 0x10000, 0x1fffe])));
    for unmet in [&[][..], &[7], &[7, 0xffff, 0x10000], &[7, 0xffff, 0x10000, 0x1fffe, 0x1ffff]] {
        assert!(!heard.meets(&Expected::Changed(unmet.to_vec())));
    }
    let parts = heard.told(&Record::Message(message));
    assert_eq!(parts[0].1, "6F transfer, bSlot 00, bSeq 09, D1 write 0A 0B at 1FFFE");
    assert_eq!(parts.last(), Some(&("changed", "00007 0FFFF..10000 1FFFE (4 bytes)".to_string())));
}

/// What the slot record says is told where it is new.
#[test]
fn slots() {
    let slot = Some("kind 11, inactive".to_string());
    let inserted = Heard { line: "in 0".to_string(), kind: 11, slot, ..Heard::default() };
    let record = Record::Insert { told: "a card".to_string(), body: vec![11] };
    let parts = inserted.told(&record);
    assert_eq!(parts[1..], [("line", "in 0, the card is in".into()), ("slot", "kind 11, inactive".into())]);
    assert_eq!(inserted.whole_line(), "in 0");
    assert!(inserted.meets(&Expected::Changed(Vec::new())));
}

/// The reader page and whether the host chose it; a byte that is neither 0 nor 1 meets nothing.
#[test]
fn pages() {
    let with = |page: Option<(u8, u8)>| Heard { line: "out 0".to_string(), page, ..Heard::default() };
    for (page, expected) in [((8, 0), (8, false)), ((32, 0), (32, false)), ((8, 1), (8, true)), ((128, 1), (128, true))]
    {
        let expected = Expected::Page(expected.0, expected.1);
        assert!(with(Some(page)).meets(&expected));
        for unmet in [None, Some((page.0, 1 - page.1)), Some((16, page.1)), Some((page.0, 2)), Some((page.0, 0xff))] {
            assert!(!with(unmet).meets(&expected), "{:?} is not {:?}", unmet, page);
        }
    }
    // What came is told with the page where one was expected.
    let heard = with(Some((8, 1)));
    assert_eq!(heard.came(&Expected::Page(32, false)), "'out 0' and page 8, chosen");
    assert_eq!(with(Some((8, 7))).came(&Expected::Page(8, true)), "'out 0' and page 8, 07 for not chosen or chosen");
    assert_eq!(heard.came(&Expected::Bad), "'out 0'");
    assert_eq!(with(None).came(&Expected::Page(32, false)), "'out 0'");
}
