use super::*;

/// A record with this first byte.
fn raw(first: u8) -> [u8; 32] {
    let mut record = [0; 32];
    record[0] = first;
    record
}

fn insertion(kind: u8, image: &[u8]) -> Record {
    Record::Insert { told: "a card".to_string(), body: [&[kind], image].concat() }
}

/// A line of a case: the number, the answer, the record afterwards and what changed.
fn line(number: u8, answer: &[u8], record: &[u8; 32], changes: &str) -> String {
    let mut buffer = vec![FILL; ROOM];
    buffer[..answer.len()].copy_from_slice(answer);
    format!("{} {} {} {}{}", number, answer.len(), hex::digits(record), hex::digits(&buffer), changes)
}

/// The fixed part of a case, which is 42 bytes.
fn fixed(call: u8, record: &[u8; 32], message: [u8; 2], image: [u8; 4]) -> Vec<u8> {
    [&[call][..], record, &[0x0f, 0x01, 0xee], &message, &image].concat()
}

#[test]
fn cases() {
    let kept = Kept { record: raw(11), image: vec![0x5c; 131_072] };
    let message = vec![0x65; 600];
    let wanted = [fixed(0, &raw(11), [0x58, 0x02], [0, 0, 2, 0]), message.clone(), vec![0x5c; 131_072]].concat();
    assert!(kept.case(&Record::Message(message)) == wanted);
    // The image of an insertion is the new card's, and a removal has none.
    let wanted = [fixed(1, &raw(11), [1, 0], [3, 0, 0, 0]), vec![30, 1, 2, 3]].concat();
    assert_eq!(kept.case(&insertion(30, &[1, 2, 3])), wanted);
    assert_eq!(kept.case(&Record::Remove), fixed(2, &raw(11), [0, 0], [0, 0, 0, 0]));
    // The first case of all.
    assert_eq!(Kept::default().case(&Record::Remove), fixed(2, &[0; 32], [0, 0], [0, 0, 0, 0]));
    assert_eq!(wanted.len(), 42 + 4);
}

/// Record and image are what the lines say.
#[test]
fn lines_are_taken() {
    let mut kept = Kept::default();
    let heard = kept.take(&Record::Remove, &line(0, &[], &raw(0), "")).unwrap();
    assert_eq!((heard.line.as_str(), heard.kind, heard.slot), ("out 0", 0, None));

    let heard = kept.take(&insertion(11, &[1, 2, 3, 4]), &line(0, &[], &raw(11), "")).unwrap();
    assert_eq!((heard.line.as_str(), heard.kind), ("in 0", 11));
    assert_eq!(heard.slot, Some(tell::slot(&raw(11))));
    assert_eq!((kept.record, &kept.image[..]), (raw(11), &[1, 2, 3, 4][..]));

    // A card that is not put in leaves the other.
    let heard = kept.take(&insertion(10, &[7, 7]), &line(5, &[], &raw(11), "")).unwrap();
    assert_eq!((heard.line.as_str(), heard.kind, heard.slot), ("in 5", 11, None));
    assert_eq!((kept.record, &kept.image[..]), (raw(11), &[1, 2, 3, 4][..]));

    let message = Record::Message(vec![0x6f; 17]);
    let heard = kept.take(&message, &line(0, &[0x80, 0x0a], &raw(11), " 0000=aa 0001=bb 0003=cc")).unwrap();
    assert_eq!(heard.line, "msg 0 800a");
    assert_eq!(heard.message, [0x6f; 17]);
    assert_eq!(heard.changed, [(0, vec![0xaa, 0xbb]), (3, vec![0xcc])]);
    assert_eq!(heard.slot, None);
    assert_eq!(kept.image, [0xaa, 0xbb, 3, 0xcc]);

    let heard = kept.take(&message, &line(2, &[], &raw(11), "")).unwrap();
    assert_eq!(heard.line, "msg 2");
    assert_eq!(kept.image, [0xaa, 0xbb, 3, 0xcc]);

    let heard = kept.take(&Record::Remove, &line(0, &[], &raw(0), "")).unwrap();
    assert_eq!((heard.line.as_str(), heard.kind), ("out 0", 0));
    assert_eq!((kept.record, &kept.image[..]), (raw(0), &[][..]));
}

/// Page and flag are bytes 3 and 16 of the record, and a flag that changes alone is told.
#[test]
fn pages_are_taken() {
    let mut kept = Kept::default();
    let mut record = raw(9);
    record[3] = 32;
    let message = Record::Message(vec![]);
    let heard = kept.take(&message, &line(0, &[], &record, "")).unwrap();
    assert_eq!((heard.page, heard.slot), (Some((32, 0)), Some(tell::slot(&record))));
    record[16] = 1;
    let heard = kept.take(&message, &line(0, &[], &record, "")).unwrap();
    assert_eq!((heard.page, heard.slot), (Some((32, 1)), Some(tell::slot(&record))));
    // So it stays where a message is turned down.
    let heard = kept.take(&message, &line(2, &[], &record, "")).unwrap();
    assert_eq!((heard.page, heard.slot), (Some((32, 1)), None));
}

/// Runs on both sides of 10000h are one.
#[test]
fn runs_of_changes() {
    let mut kept = Kept { record: raw(11), image: vec![0; 131_072] };
    let changes = " 0000=01 ffff=02 10000=03 1fffe=04 1ffff=05";
    let heard = kept.take(&Record::Message(vec![]), &line(0, &[], &raw(11), changes)).unwrap();
    assert_eq!(heard.changed, [(0, vec![1]), (0xffff, vec![2, 3]), (0x1fffe, vec![4, 5])]);
    assert_eq!((kept.image[0xffff], kept.image[0x10000], kept.image[0x1ffff]), (2, 3, 5));
}

#[test]
fn lines_of_no_case() {
    let message = Record::Message(vec![]);
    let good = line(0, &[0x80], &raw(1), " 0001=aa");
    let kept = || Kept { record: raw(1), image: vec![0; 2] };
    assert!(kept().take(&message, &good).is_some());
    for bad in [
        "".to_string(),
        "bad".to_string(),
        "out 0".to_string(),
        good.replacen("0 1 ", "x 1 ", 1),
        good.replacen("0 1 ", "0 272 ", 1),
        good.replacen("0 1 01", "0 1 ", 1),
        good.replacen("0 1 01", "0 1 0101", 1),
        good.replacen("ee ", "eeee ", 1),
        good.replacen("ee ", " ", 1),
        good.replacen("ee ", "eg ", 1),
        line(0, &[], &raw(1), " 0002=aa"),
        line(0, &[], &raw(1), " 0001=a"),
        line(0, &[], &raw(1), " 0001=aabb"),
        line(0, &[], &raw(1), " 0001"),
        line(0, &[], &raw(1), " x=aa"),
        line(0, &[], &raw(1), " "),
        format!("0 0 {} -", hex::digits(&raw(1))),
    ] {
        assert!(kept().take(&message, &bad).is_none(), "{}", bad);
    }
}
