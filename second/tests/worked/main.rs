//! The second program's own tests: answers worked out by hand from the paper.

mod calls;
mod counts;
mod large;
mod pages;
mod parameters;
mod protected;
mod without_code;

use second::case::{Call, Case};
use second::parameters::Parameters;
use second::reader::{self, Chip, Slot};
use second::step::{Reader, INSERT, MESSAGE, REMOVE};

/// A reader and short words for what a host does with it.
struct Host(Reader);

impl Host {
    fn new() -> Host {
        Host(Reader::empty())
    }

    /// A card that went in, is powered and has its type selected.
    fn with(kind: u8, image: Vec<u8>) -> Host {
        let mut host = Host::new();
        assert_eq!(host.insert(kind, &image), "in 0");
        host.raw("62 00000000 00 00 00 0000");
        let own = match kind {
            1..=5 => "01",
            6..=9 => "02",
            20 | 21 => "05",
            _ => "06",
        };
        assert_eq!(host.send(&format!("FF A4 00 00 01 {}", own)), "9000");
        host
    }

    fn insert(&mut self, kind: u8, image: &[u8]) -> String {
        let body = [&[kind], image].concat();
        self.0.record(INSERT, &body).unwrap()
    }

    fn remove(&mut self) -> String {
        self.0.record(REMOVE, &[]).unwrap()
    }

    /// A whole message; what comes after `msg `.
    fn raw(&mut self, message: &str) -> String {
        let line = self.0.record(MESSAGE, &bytes(message)).unwrap();
        line.strip_prefix("msg ").unwrap().to_string()
    }

    /// The data of an answer to a 6Fh that has these data.
    fn send(&mut self, data: &str) -> String {
        self.send_bytes(&bytes(data))
    }

    fn send_bytes(&mut self, data: &[u8]) -> String {
        let header = [&[0x6f], &(data.len() as u32).to_le_bytes()[..], &[0, 9, 0, 0, 0]].concat();
        let line = self.0.record(MESSAGE, &[&header[..], data].concat()).unwrap();
        let answer = line.strip_prefix("msg 0 80").unwrap();
        let length = answer.len() / 2 - 9;
        assert_eq!(&answer[..18], format!("{:02x}{:02x}00000009000000", length % 256, length / 256));
        answer[18..].to_string()
    }
}

fn bytes(text: &str) -> Vec<u8> {
    let digits: Vec<char> = text.chars().filter(|c| !c.is_whitespace()).collect();
    digits.chunks(2).map(|two| u8::from_str_radix(&two.iter().collect::<String>(), 16).unwrap()).collect()
}

/// The card of "Sessions to try": memory A2 13 10 91 .., nothing protected, code 11 22 33.
fn sle4442(counter: u8) -> Vec<u8> {
    let mut image = vec![0xff; 256];
    image[..4].copy_from_slice(&[0xa2, 0x13, 0x10, 0x91]);
    image.extend_from_slice(&[0xff, 0xff, 0xff, 0xff, counter, 0x11, 0x22, 0x33]);
    image
}

/// An SLE4428 whose memory counts up, code AA BB, nothing protected.
fn sle4428(counter: u8) -> Vec<u8> {
    let mut image: Vec<u8> = (0..1024).map(|k| k as u8).collect();
    image[0x3fd..].copy_from_slice(&[counter, 0xaa, 0xbb]);
    image.resize(1152, 0xff);
    image
}

// ---- the starred sessions

#[test]
fn power_on_of_a_4442() {
    let mut host = Host::new();
    host.insert(30, &sle4442(7));
    assert_eq!(host.raw("62 00000000 00 00 00 0000"), "0 800600000000000000003b04a2131091");
}

#[test]
fn three_wrong_codes_and_the_right_one() {
    let mut host = Host::with(30, sle4442(7));
    assert_eq!(host.send("FF 20 00 00 03 01 02 03"), "9006");
    assert_eq!(host.send("FF 20 00 00 03 01 02 03"), "9004");
    assert_eq!(host.send("FF 20 00 00 03 01 02 03"), "9000");
    assert_eq!(host.send("FF 20 00 00 03 11 22 33"), "9000");
    assert!(!host.0.slot.open);
    assert_eq!(host.0.image, sle4442(0));
}

#[test]
fn wrong_wrong_right() {
    let mut host = Host::with(30, sle4442(7));
    assert_eq!(host.send("FF 20 00 00 03 01 02 03"), "9006");
    assert_eq!(host.send("FF 20 00 00 03 01 02 03"), "9004");
    assert_eq!(host.send("FF 20 00 00 03 11 22 33"), "9007");
    assert!(host.0.slot.open);
    assert_eq!(host.0.image, sle4442(7));
}

#[test]
fn odd_counters() {
    // 05h is 101b: the lowest one bit goes, 100b stays.
    assert_eq!(Host::with(30, sle4442(5)).send("FF 20 00 00 03 01 02 03"), "9004");
    assert_eq!(Host::with(20, sle4428(0xff)).send("FF 20 00 00 02 01 02"), "90fe");
    // 6: 110b to 100b; 3: 011b to 010b; 4: 100b to 000b.
    assert_eq!(Host::with(30, sle4442(6)).send("FF 20 00 00 03 01 02 03"), "9004");
    assert_eq!(Host::with(30, sle4442(3)).send("FF 20 00 00 03 01 02 03"), "9002");
    assert_eq!(Host::with(30, sle4442(4)).send("FF 20 00 00 03 01 02 03"), "9000");
    // The last try may be the right one.
    assert_eq!(Host::with(30, sle4442(4)).send("FF 20 00 00 03 11 22 33"), "9007");
    assert_eq!(Host::with(20, sle4428(0x50)).send("FF 20 00 00 02 01 02"), "9040");
    assert_eq!(Host::with(20, sle4428(0x80)).send("FF 20 00 00 02 AA BB"), "90ff");
}

#[test]
fn write_while_closed() {
    let mut host = Host::with(30, sle4442(7));
    assert_eq!(host.send("FF D0 00 40 01 55"), "6982");
    assert_eq!(host.0.image, sle4442(7));
}

#[test]
fn read_at_the_end() {
    let mut host = Host::with(30, sle4442(7));
    assert_eq!(host.send("FF B0 00 FF 01"), "ff9000");
    assert_eq!(host.send("FF B0 00 FF 02"), "6b00");
}

#[test]
fn b1_with_a_length_not_3_on_a_4428() {
    // Length comes before place, so 67 00 although P1P2 is not 0000h.
    assert_eq!(Host::with(20, sle4428(0xff)).send("FF B1 00 10 01"), "6700");
    assert_eq!(Host::with(20, sle4428(0xff)).send("FF B1 00 10 03"), "6b00");
}

#[test]
fn dw_length() {
    let mut host = Host::with(30, sle4442(7));
    assert_eq!(host.raw("6F FFFFFFFF 00 07 00 0000 FF B0 00 00 04"), "0 80000000000007400100");
    // 261 bytes reach the commands, whose first step they pass; 262 do not.
    assert_eq!(host.send_bytes(&[0x00; 261]), "6e00");
    let header = bytes("6F 06010000 00 07 00 0000");
    let line = host.0.record(MESSAGE, &[&header[..], &[0x00; 262]].concat()).unwrap();
    assert_eq!(line, "msg 0 80000000000007400100");
}

#[test]
fn a_reader_page_above_the_chip_page() {
    let mut host = Host::with(1, vec![0xee; 128]);
    assert_eq!(host.send("FF 01 00 00 01 04"), "9000");
    assert_eq!(host.send("FF D0 00 00 10 000102030405060708090A0B0C0D0E0F"), "9000");
    assert_eq!(host.0.image[..8], [8, 9, 10, 11, 12, 13, 14, 15]);
    assert_eq!(host.0.image[8..], [0xee; 120]);
}

#[test]
fn the_session_of_the_paper() {
    let mut host = Host::new();
    assert_eq!(host.raw("65 00000000 00 07 000000"), "0 81000000000007020001");
    assert_eq!(host.remove(), "out 0");
    assert_eq!(host.raw("65"), "2");
}

// ---- messages

#[test]
fn slot_status() {
    let mut host = Host::new();
    assert_eq!(host.raw("65 00000000 00 01 FFFFFF"), "0 81000000000001020001");
    host.insert(30, &sle4442(7));
    assert_eq!(host.raw("65 00000000 00 02 000000"), "0 81000000000002010001");
    host.raw("62 00000000 00 03 03 0000");
    assert_eq!(host.raw("65 00000000 00 04 000000"), "0 81000000000004000000");
    assert_eq!(host.raw("63 00000000 00 05 000000"), "0 81000000000005010001");
    // Power off without a card succeeds too.
    host.remove();
    assert_eq!(host.raw("63 00000000 00 06 000000"), "0 81000000000006020001");
}

#[test]
fn faults_in_their_order() {
    let mut host = Host::with(30, sle4442(7));
    // An unsupported type wins over all, and tells the state that bSlot means.
    assert_eq!(host.raw("69 00000000 00 01 000000"), "0 81000000000001400000");
    assert_eq!(host.raw("69 FFFFFFFF 05 01 000000"), "0 81000000000501420001");
    // dwLength wins over bSlot, bSlot over bPowerSelect and wLevelParameter.
    assert_eq!(host.raw("62 01000000 05 01 04 0000"), "0 80000000000501420100");
    assert_eq!(host.raw("62 00000000 05 01 04 0000"), "0 80000000000501420500");
    assert_eq!(host.raw("62 00000000 00 01 04 0000"), "0 80000000000001400700");
    assert_eq!(host.raw("6F 00000000 01 01 00 0100"), "0 80000000000101420500");
    assert_eq!(host.raw("6F 00000000 00 01 00 0100"), "0 80000000000001400800");
    assert_eq!(host.raw("6F 00000000 00 01 00 0001"), "0 80000000000001400800");
    // 63h and 65h have no data, 262 and more are too many.
    assert_eq!(host.raw("63 01000000 00 01 000000 00"), "0 81000000000001400100");
    assert_eq!(host.raw("65 01000000 00 01 000000 00"), "0 81000000000001400100");
    assert_eq!(host.raw("65 00000000 01 01 000000"), "0 81000000000101420501");
    // A dwLength below what came is a fault, and drops nothing.
    assert_eq!(host.raw("6F 05000000 00 01 000000 FF B0 00 00 01 00"), "0 80000000000001400100");
    host.remove();
    assert_eq!(host.raw("62 00000000 00 01 04 0000"), "0 80000000000001420700");
    assert_eq!(host.raw("62 00000000 00 01 00 0000"), "0 8000000000000142fe00");
    assert_eq!(host.raw("6F 00000000 00 01 000000"), "0 8000000000000142fe00");
    host.insert(30, &sle4442(7));
    assert_eq!(host.raw("6F 00000000 00 01 000000"), "0 8000000000000141fe00");
    assert_eq!(host.raw("6F 00000000 00 01 00 0001"), "0 80000000000001410800");
}

#[test]
fn bytes_that_are_ignored() {
    let mut host = Host::with(30, sle4442(7));
    // bBWI, and the reserved bytes of 62h.
    assert_eq!(host.raw("6F 05000000 00 01 FF 0000 FF B0 00 00 01"), "0 80030000000001000000a29000");
    assert_eq!(host.raw("62 00000000 00 01 03 FFFF"), "0 800600000000010000003b04a2131091");
}

#[test]
fn power_on_of_i2c() {
    let mut host = Host::new();
    host.insert(9, &[0x77; 32768]);
    assert_eq!(host.raw("62 00000000 00 00 00 0000"), "0 800200000000000000003b00");
}

#[test]
fn power_on_again_closes_and_unselects() {
    let mut host = Host::with(30, sle4442(7));
    assert_eq!(host.send("FF 20 00 00 03 11 22 33"), "9007");
    host.raw("62 00000000 00 00 00 0000");
    assert_eq!(host.send("FF B0 00 00 01"), "6985");
    assert_eq!(host.send("FF A4 00 00 01 06"), "9000");
    assert_eq!(host.send("FF D0 00 40 01 55"), "6982");
}

#[test]
fn a_failed_power_on_changes_nothing() {
    let mut host = Host::with(30, sle4442(7));
    assert_eq!(host.send("FF 20 00 00 03 11 22 33"), "9007");
    host.raw("62 00000000 00 00 04 0000");
    assert_eq!(host.send("FF D0 00 40 01 55"), "9000");
}

#[test]
fn the_page_size_survives_power_but_not_removal() {
    let mut host = Host::with(1, vec![0; 128]);
    host.send("FF 01 00 00 01 07");
    host.raw("63 00000000 00 00 000000");
    host.raw("62 00000000 00 00 000000");
    assert_eq!(host.0.slot.page, 128);
    host.remove();
    assert_eq!(host.0.slot, Slot::empty());
}

#[test]
fn equal_messages_are_two() {
    let mut host = Host::with(30, sle4442(7));
    let wrong = "6F 08000000 00 44 000000 FF 20 00 00 03 00 00 00";
    assert_eq!(host.raw(wrong), "0 800200000000440000009006");
    assert_eq!(host.raw(wrong), "0 800200000000440000009004");
}

// ---- commands

#[test]
fn the_first_five_steps() {
    let mut host = Host::new();
    host.insert(20, &sle4428(0xff));
    host.raw("62 00000000 00 00 00 0000");
    assert_eq!(host.send(""), "6700");
    assert_eq!(host.send("00 00 00 00"), "6700");
    assert_eq!(host.send("00 00 00 00 00"), "6e00");
    assert_eq!(host.send("FF B3 00 00 00"), "6d00");
    // No type selected: 69 85, though a 4428 has no D2 and no 01.
    assert_eq!(host.send("FF D2 00 00 00"), "6985");
    assert_eq!(host.send("FF 01 00 00 00"), "6985");
    assert_eq!(host.send("FF B0 FF FF 00"), "6985");
    assert_eq!(host.send("FF A4 00 00 01 05"), "9000");
    assert_eq!(host.send("FF D2 00 00 00"), "6d00");
    assert_eq!(host.send("FF 01 00 00 00"), "6d00");
    let mut host = Host::with(6, vec![0; 4096]);
    for ins in ["B1", "B2", "D1", "20", "D2"] {
        assert_eq!(host.send(&format!("FF {} FF FF 00", ins)), "6d00");
    }
    assert_eq!(Host::with(30, sle4442(7)).send("FF 01 00 00 01 03"), "6d00");
}

#[test]
fn lengths() {
    let mut host = Host::with(30, sle4442(7));
    for apdu in [
        "FF A4 00 00 00",
        "FF A4 00 00 01",
        "FF A4 00 00 02 06 06",
        "FF A4 00 00 01 06 06",
        "FF B0 00 00 00",
        "FF B0 00 00 01 00",
        "FF B1 00 00 03",
        "FF B1 00 00 04 00",
        "FF B2 00 00 03",
        "FF B2 00 00 05",
        "FF D0 00 00 00",
        "FF D0 00 00 02 01",
        "FF D1 00 00 00",
        "FF D1 00 00 01",
        "FF 20 00 00 02 11 22",
        "FF 20 00 00 03 11 22",
        "FF 20 00 00 04 11 22 33 44",
        "FF D2 00 01 02 01 02",
    ] {
        assert_eq!(host.send(apdu), "6700", "{}", apdu);
    }
    let mut host = Host::with(20, sle4428(0xff));
    for apdu in [
        "FF B1 00 00 04",
        "FF B1 00 00 02",
        "FF B2 00 00 00",
        "FF B2 00 00 21",
        "FF B2 00 00 01 00",
        "FF 20 00 00 03 01 02 03",
        "FF 20 00 00 01 01",
    ] {
        assert_eq!(host.send(apdu), "6700", "{}", apdu);
    }
    let mut host = Host::with(1, vec![0; 128]);
    for apdu in ["FF 01 00 00 00", "FF 01 00 00 02 03 03", "FF 01 00 00 01", "FF B0 00 00 00", "FF D0 00 00 00"] {
        assert_eq!(host.send(apdu), "6700", "{}", apdu);
    }
}

#[test]
fn places() {
    let mut host = Host::with(30, sle4442(7));
    for apdu in [
        "FF A4 00 01 01 06",
        "FF A4 01 00 01 06",
        "FF B1 00 01 04",
        "FF B2 00 01 04",
        "FF B2 01 00 04",
        "FF 20 00 01 03 11 22 33",
        "FF D2 00 00 03 11 22 33",
        "FF D2 00 02 03 11 22 33",
        "FF B0 01 00 01",
        "FF B0 FF FF FF",
        "FF D0 00 FF 02 00 00",
        "FF D1 00 20 01 00",
        "FF D1 00 1F 02 00 00",
    ] {
        assert_eq!(host.send(apdu), "6b00", "{}", apdu);
    }
    let mut host = Host::with(20, sle4428(0xff));
    for apdu in [
        "FF B0 04 00 01",
        "FF B0 03 FF 02",
        "FF B2 03 F9 01",
        "FF B2 03 01 20",
        "FF D0 03 FD 01 00",
        "FF D0 03 FC 02 00 00",
        "FF D0 03 FB 05 00 00 00 00 00",
        "FF D0 03 FF 02 00 00",
        "FF D1 03 FD 01 00",
        "FF D1 03 FC 02 00 00",
        "FF D1 03 FE 01 00",
    ] {
        assert_eq!(host.send(apdu), "6b00", "{}", apdu);
    }
    // Place comes before closed: these are in place and find the card closed.
    for apdu in ["FF D0 03 FC 01 00", "FF D0 03 FE 02 00 00", "FF D1 03 FC 01 00"] {
        assert_eq!(host.send(apdu), "6982", "{}", apdu);
    }
    let mut host = Host::with(1, vec![0; 128]);
    for apdu in ["FF 01 00 01 01 03", "FF B0 00 80 01", "FF B0 00 7F 02", "FF D0 00 7F 02 00 00"] {
        assert_eq!(host.send(apdu), "6b00", "{}", apdu);
    }
    assert_eq!(host.send("FF B0 00 7F 01"), "009000");
    let mut host = Host::with(9, vec![0x5a; 32768]);
    assert_eq!(host.send("FF B0 7F FF 01"), "5a9000");
    assert_eq!(host.send("FF B0 7F FF 02"), "6b00");
    assert_eq!(host.send("FF B0 80 00 01"), "6b00");
}

#[test]
fn values() {
    let mut host = Host::with(1, vec![0; 128]);
    for apdu in ["FF A4 00 00 01 02", "FF A4 00 00 01 00", "FF 01 00 00 01 02", "FF 01 00 00 01 08"] {
        assert_eq!(host.send(apdu), "6a80", "{}", apdu);
    }
    // The refused selection leaves the selected type.
    assert_eq!(host.send("FF B0 00 00 01"), "009000");
    for (code, page) in [("03", 8), ("04", 16), ("05", 32), ("06", 64), ("07", 128)] {
        assert_eq!(host.send(&format!("FF 01 00 00 01 {}", code)), "9000");
        assert_eq!(host.0.slot.page, page);
    }
    assert_eq!(Host::with(6, vec![0; 4096]).send("FF A4 00 00 01 01"), "6a80");
}

#[test]
fn counter_and_protection_bits() {
    let mut image = sle4442(5);
    image[256..260].copy_from_slice(&[0xf0, 0xff, 0x7f, 0x01]);
    let mut host = Host::with(30, image);
    assert_eq!(host.send("FF B1 00 00 04"), "050000009000");
    assert_eq!(host.send("FF B2 00 00 04"), "f0ff7f019000");

    let mut image = sle4428(0xfe);
    image[1024] = 0x0f;
    image[1025] = 0xfe;
    let mut host = Host::with(20, image);
    assert_eq!(host.send("FF B1 00 00 03"), "fe00009000");
    assert_eq!(host.send("FF B2 00 00 02"), "0ffe9000");
    // From address 4 on: bits 4..7 are 0, bit 8 is 0, bits 9..11 are 1: 1110_0000b; then 12..15 are
    // 1 and 16..19 too.
    assert_eq!(host.send("FF B2 00 04 02"), "e0ff9000");
    assert_eq!(host.send("FF B2 03 F8 01"), "ff9000");
    assert_eq!(host.send("FF B2 03 00 20"), "ff".repeat(32) + "9000");
}

#[test]
fn protecting() {
    let mut host = Host::with(30, sle4442(7));
    assert_eq!(host.send("FF D1 00 00 04 A2 13 10 91"), "6982");
    assert_eq!(host.send("FF 20 00 00 03 11 22 33"), "9007");
    // Bytes 0, 2 and 3 are equal, byte 1 is not and is passed over: bits 1101b go, 1111_0010b stay.
    assert_eq!(host.send("FF D1 00 00 04 A2 14 10 91"), "9000");
    assert_eq!(host.send("FF B2 00 00 04"), "f2ffffff9000");
    assert_eq!(host.send("FF D0 00 01 01 76"), "9000");
    assert_eq!(host.send("FF D0 00 01 02 77 78"), "6581");
    assert_eq!(host.send("FF D0 00 02 01 10"), "9000");
    assert_eq!(host.send("FF B0 00 00 04"), "a27710919000");
    // Protecting a protected byte is nothing new. 31 is the last byte that has a bit.
    assert_eq!(host.send("FF D1 00 00 01 A2"), "9000");
    assert_eq!(host.send("FF D1 00 1F 01 FF"), "9000");
    assert_eq!(host.send("FF B2 00 00 04"), "f2ffff7f9000");
    assert_eq!(host.send("FF D0 00 20 01 00"), "9000");

    let mut host = Host::with(20, sle4428(0xff));
    assert_eq!(host.send("FF 20 00 00 02 AA BB"), "90ff");
    // Byte 3FCh is FCh; its bit is bit 4 of protection byte 127.
    assert_eq!(host.send("FF D1 03 FC 01 FC"), "9000");
    assert_eq!(host.0.image[1024 + 127], 0xef);
    assert_eq!(host.send("FF D0 03 FC 01 00"), "6581");
    assert_eq!(host.send("FF D0 03 FC 01 FC"), "9000");
}

#[test]
fn the_code_of_a_4428() {
    let mut host = Host::with(20, sle4428(0x7f));
    assert_eq!(host.send("FF B0 03 FC 04"), "fc7f00009000");
    assert_eq!(host.send("FF 20 00 00 02 AA BB"), "90ff");
    assert_eq!(host.send("FF B0 03 FC 04"), "fcffaabb9000");
    // D0 may write the code; the card stays open, and the new code is the one that counts.
    assert_eq!(host.send("FF D0 03 FE 02 01 02"), "9000");
    assert_eq!(host.send("FF B0 03 FE 02"), "01029000");
    assert_eq!(host.send("FF 20 00 00 02 AA BB"), "90fe");
    assert_eq!(host.send("FF B0 03 FE 02"), "00009000");
    assert_eq!(host.send("FF 20 00 00 02 01 02"), "90ff");
}

#[test]
fn changing_the_code() {
    let mut host = Host::with(30, sle4442(7));
    assert_eq!(host.send("FF D2 00 01 03 44 55 66"), "6982");
    assert_eq!(host.send("FF 20 00 00 03 11 22 33"), "9007");
    assert_eq!(host.send("FF D2 00 01 03 44 55 66"), "9000");
    assert_eq!(host.send("FF D0 00 80 02 01 02"), "9000");
    assert_eq!(host.send("FF 20 00 00 03 11 22 33"), "9006");
    assert_eq!(host.send("FF D0 00 80 02 03 04"), "6982");
    assert_eq!(host.send("FF 20 00 00 03 44 55 66"), "9007");
}

#[test]
fn selecting_again_closes() {
    let mut host = Host::with(30, sle4442(7));
    assert_eq!(host.send("FF 20 00 00 03 11 22 33"), "9007");
    assert_eq!(host.send("FF A4 00 00 01 05"), "6a80");
    assert_eq!(host.send("FF D0 00 80 01 01"), "9000");
    assert_eq!(host.send("FF A4 00 00 01 06"), "9000");
    assert_eq!(host.send("FF D0 00 80 01 01"), "6982");
    assert_eq!(host.0.image[260], 7);
}

#[test]
fn page_writes() {
    // Chip page 16, reader page 8: cuts at 8 and 16, no wrap.
    let mut host = Host::with(3, vec![0; 512]);
    assert_eq!(host.send("FF D0 00 06 0C 010203040506070809 0A 0B 0C"), "9000");
    assert_eq!(host.0.image[6..18], [1, 2, 3, 4, 5, 6, 7, 8, 9, 10, 11, 12]);
    // Chip page 8, reader page 32, nine bytes from 6: one cut. 6 and 7 hold 1 and 2, then the low
    // part runs round to 0: 3..8 go to 0..5, and 9 to 6.
    let mut host = Host::with(2, vec![0; 256]);
    host.send("FF 01 00 00 01 05");
    assert_eq!(host.send("FF D0 00 06 09 010203040506070809"), "9000");
    assert_eq!(host.0.image[..10], [3, 4, 5, 6, 7, 8, 9, 2, 0, 0]);
    // Reader page 16, chip page 8, twelve bytes from 0Ch: 0C..0F are one cut, in page 8..0F; from
    // 10h on another: 10..17 lie in one chip page.
    let mut host = Host::with(2, vec![0; 256]);
    host.send("FF 01 00 00 01 04");
    assert_eq!(host.send("FF D0 00 0C 0C 010203040506070809 0A 0B 0C"), "9000");
    assert_eq!(host.0.image[8..28], [0, 0, 0, 0, 1, 2, 3, 4, 5, 6, 7, 8, 9, 10, 11, 12, 0, 0, 0, 0]);
    // Chip page 64, reader page 128, four bytes from 7Eh: the cut at 80h begins a new page.
    let mut host = Host::with(9, vec![0; 32768]);
    host.send("FF 01 00 00 01 07");
    assert_eq!(host.send("FF D0 00 7E 04 01020304"), "9000");
    assert_eq!(host.0.image[0x7e..0x82], [1, 2, 3, 4]);
    // At 3Eh the cut ends only at 80h, so the third byte runs round to 0.
    assert_eq!(host.send("FF D0 00 3E 04 0A0B0C0D"), "9000");
    assert_eq!(host.0.image[0x3e..0x42], [10, 11, 0, 0]);
    assert_eq!(host.0.image[..3], [12, 13, 0]);
}

#[test]
fn the_longest_answer() {
    let mut host = Host::with(30, sle4442(7));
    let answer = host.send("FF B0 00 01 FF");
    assert_eq!(answer.len(), 2 * 257);
    assert_eq!(&answer[..6], "131091");
}

// ---- insertion, removal, and what is turned down

#[test]
fn insertions() {
    let mut host = Host::new();
    for (kind, length) in
        [(0, 0), (10, 128), (22, 1152), (32, 264), (1, 127), (1, 129), (9, 32767), (20, 1151), (30, 265)]
    {
        assert_eq!(host.insert(kind, &vec![0xff; length]), "in 3", "{}", kind);
    }
    assert_eq!(host.insert(30, &sle4442(8)), "in 3");
    let mut image = sle4428(0xff);
    image[1024 + 127] = 0xdf;
    assert_eq!(host.insert(20, &image), "in 3");
    assert_eq!(host.0.record(INSERT, &[]).unwrap(), "in 3");
    assert_eq!(host.insert(30, &sle4442(7)), "in 0");
    let parameters = Parameters { protocol: 0, bytes: bytes("11 00 00 0A 00") };
    assert_eq!(
        host.0.slot,
        Slot {
            kind: 30,
            active: false,
            selected: 0,
            page: 8,
            open: false,
            parameters,
            tries: 3,
            protected: 0,
            chosen: false
        }
    );
    assert_eq!(host.insert(30, &sle4442(8)), "in 5");
    assert_eq!(host.insert(20, &sle4428(0xff)), "in 5");
    assert_eq!(host.0.record(INSERT, &[]).unwrap(), "in 5");
    assert_eq!(host.remove(), "out 0");
    assert_eq!(host.insert(20, &sle4428(0)), "in 0");
}

#[test]
fn records_that_end_the_session() {
    let mut reader = Reader::empty();
    assert!(reader.record(REMOVE, &[0]).is_none());
    assert!(reader.record([0x43, 0x4d], &[]).is_none());
    assert!(reader.record(MESSAGE, &[0; 32770]).is_none());
    assert!(reader.record(MESSAGE, &[0; 32769]).is_some());
}

/// A message over a slot and an image; turned down, it has changed nothing.
fn try_it(slot: &Slot, image: &[u8], message: &[u8], buffer: usize) -> Result<usize, u8> {
    let (mut slot_after, mut image_after, mut answer) = (slot.clone(), image.to_vec(), vec![0xc3; buffer]);
    let result = reader::message(&mut slot_after, &mut image_after, message, &mut answer);
    if result.is_err() {
        assert_eq!(slot_after, *slot);
        assert_eq!(image_after, image);
        assert_eq!(answer, vec![0xc3; buffer]);
    }
    result
}

#[test]
fn turned_down_messages_keep_every_byte() {
    let sound = Slot { kind: 30, active: true, selected: 6, open: true, tries: 3, ..Slot::empty() };
    let status = bytes("65 00000000 00 00 000000");
    let odd = Slot { page: 7, ..sound.clone() };
    assert_eq!(try_it(&odd, &[], &status[..9], 270), Err(1));
    assert_eq!(try_it(&odd, &[], &status[..9], 271), Err(2));
    assert_eq!(try_it(&odd, &[], &status, 271), Err(3));
    assert_eq!(try_it(&odd, &sle4442(7), &status, 271), Err(4));
    assert_eq!(try_it(&sound, &sle4442(7), &status, 271), Ok(10));
    assert_eq!(try_it(&sound, &sle4442(8), &status, 271), Err(3));
    assert_eq!(try_it(&Slot { kind: 32, ..sound.clone() }, &sle4442(7), &status, 271), Err(3));
    assert_eq!(try_it(&Slot { tries: 2, ..sound.clone() }, &sle4442(5), &status, 271), Err(4));
    assert_eq!(try_it(&Slot { open: false, tries: 2, ..sound.clone() }, &sle4442(5), &status, 271), Ok(10));
    assert_eq!(try_it(&Slot { selected: 0, ..sound.clone() }, &sle4442(7), &status, 271), Err(4));
    assert_eq!(try_it(&Slot { selected: 5, open: false, ..sound.clone() }, &sle4442(7), &status, 271), Err(4));
    assert_eq!(try_it(&Slot { active: false, ..sound.clone() }, &sle4442(7), &status, 271), Err(4));
    assert_eq!(try_it(&Slot { kind: 1, selected: 1, tries: 0, ..sound.clone() }, &[0; 128], &status, 271), Err(4));
    let empty = Slot::empty();
    assert_eq!(try_it(&empty, &[1, 2, 3], &status, 271), Ok(10));
    assert_eq!(try_it(&Slot { page: 16, ..empty.clone() }, &[], &status, 271), Err(4));
    assert_eq!(try_it(&Slot { active: true, ..empty.clone() }, &[], &status, 271), Err(4));
    assert_eq!(try_it(&Slot { selected: 6, ..empty.clone() }, &[], &status, 271), Err(4));
    assert_eq!(try_it(&Slot { open: true, ..empty }, &[], &status, 271), Err(4));
}

/// Any slot record, image, message and buffer: a number or a length, and no more than the paper's
/// longest answer.
#[test]
fn any_bytes_at_all() {
    let mut state = 1u64;
    let mut next = |end: usize| {
        state = state.wrapping_mul(6364136223846793005).wrapping_add(1442695040888963407);
        ((state >> 33) as usize) % end
    };
    let sizes = [0, 128, 256, 512, 1024, 2048, 1152, 264, 263, 265];
    for _ in 0..300_000 {
        let mut slot = Slot {
            kind: [0, 1, 2, 3, 4, 5, 20, 21, 30, 30, 31, next(256) as u8][next(12)],
            active: next(4) > 0,
            selected: [0, 1, 2, 5, 6, 6, next(256) as u8][next(7)],
            page: [8, 16, 32, 64, 128, 0, next(256) as u8][next(7)],
            open: next(2) == 0,
            parameters: Parameters::default(),
            tries: next(10) as u8,
            protected: next(1026) as u16,
            chosen: next(2) == 0,
        };
        if next(4) == 0 {
            slot.parameters = Parameters { protocol: next(3) as u8, bytes: vec![0x11; next(9)] };
        }
        let mut image = vec![next(256) as u8; sizes[next(10)]];
        if image.len() > 263 {
            image[260] = 7;
            if slot.kind == 31 && next(4) > 0 {
                image[260..264].fill(0);
            }
        }
        if let (Some(chip), true) = (Chip::of(slot.kind), next(8) > 0) {
            if image.len() == chip.image {
                (slot.tries, slot.protected) = (chip.tries(&image), chip.protected_bytes(&image));
            }
        }
        let mut message: Vec<u8> = (0..next(40)).map(|_| next(256) as u8).collect();
        if message.len() >= 16 {
            let length = (message.len() - 10) as u8;
            message[..11].copy_from_slice(&[0x6f, length, 0, 0, 0, 0, 0, 0, 0, 0, 0xff]);
            message[11] = [0xa4, 0x01, 0xb0, 0xb1, 0xb2, 0xd0, 0xd1, 0x20, 0xd2][next(9)];
            message[14] = [length - 5, next(256) as u8][next(2)];
        }
        if message.len() > 9 && next(3) == 0 {
            let length = [0, 5, 7, next(9)][next(4)];
            message.resize(10 + length, next(256) as u8);
            message[..8].copy_from_slice(&[[0x61, 0x6c, 0x6d][next(3)], length as u8, 0, 0, 0, 0, 0, next(3) as u8]);
        }
        let mut answer = vec![0; [270, 271, 600][next(3)]];
        match reader::message(&mut slot, &mut image, &message, &mut answer) {
            Ok(length) => assert!((10..=267).contains(&length)),
            Err(number) => assert!((1..=4).contains(&number)),
        }
    }
}

#[test]
fn trial_lines() {
    let mut case = Case {
        call: Call::Message,
        record: raw(&[30, 1, 6, 8, 0], 3, 0),
        buffer: 272,
        fill: 0xee,
        message: bytes("6F 08000000 00 01 000000 FF 20 00 00 03 01 02 03"),
        image: sle4442(7),
    };
    let record = "1e01060800001100000a00000002".to_string() + &"00".repeat(18);
    let buffer = "800200000000010000009006".to_string() + &"ee".repeat(260);
    assert_eq!(case.line(), format!("0 12 {} {} 0104=06", record, buffer));
    // A rest byte that is not 00h is 4, after 3, 2 and 1.
    case.record[31] = 1;
    let record = "1e01060800001100000a00000003".to_string() + &"00".repeat(17) + "01";
    assert_eq!(case.line(), format!("4 0 {} {}", record, "ee".repeat(272)));
    case.image.pop();
    assert_eq!(case.line(), format!("3 0 {} {}", record, "ee".repeat(272)));
    case.message.truncate(9);
    assert_eq!(case.line(), format!("2 0 {} {}", record, "ee".repeat(272)));
    case.buffer = 0;
    assert_eq!(case.line(), format!("1 0 {} -", record));
    // With no card the image is not looked at.
    case.record = raw(&[0, 0, 0, 8, 0], 0, 0);
    case.buffer = 271;
    case.message = bytes("65 00000000 00 02 000000");
    let buffer = "81000000000002020001".to_string() + &"ee".repeat(261);
    let record = "0000000800001100000a000000".to_string() + &"00".repeat(19);
    assert_eq!(case.line(), format!("0 10 {} {}", record, buffer));
    case.record[1] = 2;
    assert_eq!(&case.line()[..4], "4 0 ");
}

/// A raw record that begins so, with the default set and these counts.
fn raw(first: &[u8; 5], tries: u8, protected: u16) -> [u8; 32] {
    let mut record = [0; 32];
    record[..5].copy_from_slice(first);
    record[5..11].copy_from_slice(&[0, 0x11, 0x00, 0x00, 0x0a, 0x00]);
    record[13] = tries;
    record[14] = protected as u8;
    record[15] = (protected >> 8) as u8;
    record
}
