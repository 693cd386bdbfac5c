//! Slot parameters: the messages 61h, 6Ch and 6Dh, and sets in slot records.

use crate::{bytes, raw, sle4442, try_it, Host};
use second::case::{self, Call, Case};
use second::parameters::Parameters;
use second::reader::{self, Slot};

/// A parameter set.
fn set(protocol: u8, text: &str) -> Parameters {
    Parameters { protocol, bytes: bytes(text) }
}

const GET: &str = "6C 00000000 00 05 000000";
const RESET: &str = "6D 00000000 00 05 000000";
const POWER_ON: &str = "62 00000000 00 05 000000";
const POWER_OFF: &str = "63 00000000 00 05 000000";
const SET_T0: &str = "61 05000000 00 05 00 0000 92 02 01 0B 01";
const SET_T1: &str = "61 07000000 00 05 01 0000 95 11 FF 9F 03 FE 00";
/// Answers with bStatus 00h: the default, and the two sets above.
const DEFAULT: &str = "0 820500000000050000001100000a00";
const T0: &str = "0 820500000000050000009202010b01";
const T1: &str = "0 820700000000050000019511ff9f03fe00";

#[test]
fn told_set_and_reset() {
    let mut host = Host::with(30, sle4442(7));
    assert_eq!(host.raw(GET), DEFAULT);
    assert_eq!(host.raw(SET_T0), T0);
    assert_eq!(host.raw(GET), T0);
    assert_eq!(host.raw(SET_T1), T1);
    assert_eq!(host.raw(GET), T1);
    assert_eq!(host.raw(SET_T0), T0);
    assert_eq!(host.raw(RESET), DEFAULT);
    assert_eq!(host.raw(GET), DEFAULT);
    // Nothing else of slot and card has moved: the type is selected still.
    assert_eq!(host.send("FF B0 00 00 01"), "a29000");
    assert_eq!(host.0.image, sle4442(7));
}

#[test]
fn a_card_is_needed_and_not_an_active_one() {
    let mut host = Host::new();
    for message in [GET, RESET, SET_T0, SET_T1] {
        assert_eq!(host.raw(message), "0 8200000000000542fe00");
    }
    host.insert(1, &[0; 128]);
    assert_eq!(host.raw(GET), "0 820500000000050100001100000a00");
    assert_eq!(host.raw(SET_T1), "0 820700000000050100019511ff9f03fe00");
    assert_eq!(host.raw(GET), "0 820700000000050100019511ff9f03fe00");
    assert_eq!(host.raw(RESET), "0 820500000000050100001100000a00");
}

#[test]
fn the_default_returns() {
    // On power on, also of an active card; not on power off.
    let mut host = Host::with(30, sle4442(7));
    host.raw(SET_T1);
    assert_eq!(host.raw(POWER_OFF), "0 81000000000005010001");
    assert_eq!(host.raw(GET), "0 820700000000050100019511ff9f03fe00");
    assert_eq!(host.raw(POWER_ON), "0 800600000000050000003b04a2131091");
    assert_eq!(host.raw(GET), DEFAULT);
    host.raw(SET_T0);
    host.raw(POWER_ON);
    assert_eq!(host.raw(GET), DEFAULT);
    // On removal and insertion; a refused insertion leaves the set.
    host.raw(SET_T1);
    assert_eq!(host.insert(30, &sle4442(7)), "in 5");
    assert_eq!(host.raw(GET), T1);
    host.remove();
    assert_eq!(host.0.slot, Slot::empty());
    host.insert(30, &sle4442(7));
    assert_eq!(host.raw(GET), "0 820500000000050100001100000a00");
    // Commands, slot status and messages that fail leave it.
    let mut host = Host::with(30, sle4442(7));
    host.raw(SET_T1);
    assert_eq!(host.send("FF A4 00 00 01 06"), "9000");
    assert_eq!(host.send("FF 20 00 00 03 11 22 33"), "9007");
    for message in [
        "65 00000000 00 05 000000",
        "62 00000000 00 05 04 0000",
        "62 00000000 01 05 00 0000",
        "6D 00000000 01 05 00 0000",
        "6D 01000000 00 05 00 0000 00",
        "61 05000000 01 05 00 0000 92 02 01 0B 01",
        "61 05000000 00 05 00 0000 92 02 01 0B 04",
        "61 05000000 00 05 01 0000 92 02 01 0B 01",
    ] {
        host.raw(message);
        assert_eq!(host.raw(GET), T1, "{}", message);
    }
}

#[test]
fn reserved_bytes_are_ignored() {
    let mut host = Host::with(30, sle4442(7));
    assert_eq!(host.raw("61 07000000 00 05 01 FFFF 95 11 FF 9F 03 FE 00"), T1);
    assert_eq!(host.raw("6C 00000000 00 05 FFFFFF"), T1);
    assert_eq!(host.raw("6D 00000000 00 05 010203"), DEFAULT);
}

#[test]
fn lengths() {
    let mut host = Host::with(30, sle4442(7));
    // 61h has 5 or 7 data bytes, 6Ch and 6Dh none; dwLength is what came.
    for message in [
        "61 00000000 00 05 00 0000",
        "61 04000000 00 05 00 0000 92 02 01 0B",
        "61 06000000 00 05 01 0000 95 11 FF 9F 03 FE",
        "61 08000000 00 05 01 0000 95 11 FF 9F 03 FE 00 00",
        "61 05000000 00 05 00 0000 92 02 01 0B 01 00 00",
        "61 07000000 00 05 01 0000 95 11 FF 9F 03",
        "61 05000001 00 05 00 0000 92 02 01 0B 01",
        "61 FFFFFFFF 00 05 00 0000 92 02 01 0B 01",
        "6C 01000000 00 05 00 0000 00",
        "6C 01000000 00 05 00 0000",
        "6C 00000000 00 05 00 0000 00",
        "6D 05000000 00 05 00 0000 11 00 00 0A 00",
        "6D 00000000 00 05 00 0000 00",
    ] {
        assert_eq!(host.raw(message), "0 82000000000005400100", "{}", message);
    }
    assert_eq!(host.raw(GET), DEFAULT);
}

#[test]
fn faults_in_their_order() {
    let mut host = Host::new();
    // All wrong at once, without a card; then one after the other is put right. The last is that no
    // card is in.
    for (message, error) in [
        ("61 06000000 01 05 02 0000 7F FF 00 A0 04 00", 0x01),
        ("61 07000000 01 05 02 0000 7F FF 00 A0 04 00 01", 0x05),
        ("61 07000000 00 05 02 0000 7F FF 00 A0 04 00 01", 0x07),
        ("61 07000000 00 05 00 0000 7F FF 00 A0 04 00 01", 0x07),
        ("61 05000000 00 05 01 0000 7F FF 00 A0 04", 0x07),
        ("61 07000000 00 05 01 0000 7F FF 00 A0 04 00 01", 0x0a),
        ("61 07000000 00 05 01 0000 1F FF 00 A0 04 00 01", 0x0a),
        ("61 07000000 00 05 01 0000 11 FF 00 A0 04 00 01", 0x0b),
        ("61 07000000 00 05 01 0000 11 10 00 A0 04 00 01", 0x0d),
        ("61 07000000 00 05 01 0000 11 10 00 90 04 00 01", 0x0e),
        ("61 07000000 00 05 01 0000 11 10 00 90 03 00 01", 0x10),
        ("61 07000000 00 05 01 0000 11 10 00 90 03 00 00", 0xfe),
        ("61 05000000 00 05 00 0000 7F FF 00 A0 04", 0x0a),
        ("61 05000000 00 05 00 0000 11 10 00 A0 04", 0x0b),
        ("61 05000000 00 05 00 0000 11 00 00 A0 04", 0x0e),
        ("61 05000000 00 05 00 0000 11 00 00 A0 03", 0xfe),
        ("6C 01000000 01 05 00 0000 00", 0x01),
        ("6C 00000000 01 05 00 0000", 0x05),
        ("6D 00000000 80 05 00 0000", 0x05),
    ] {
        let slot = &message[12..14];
        assert_eq!(host.raw(message), format!("0 8200000000{}0542{:02x}00", slot, error), "{}", message);
    }
    // With a card that is in, bStatus tells its state.
    host.insert(30, &sle4442(7));
    assert_eq!(host.raw("61 07000000 00 05 01 0000 11 10 00 90 03 00 01"), "0 82000000000005411000");
    host.raw(POWER_ON);
    assert_eq!(host.raw("61 07000000 00 05 01 0000 11 10 00 90 03 00 01"), "0 82000000000005401000");
    assert_eq!(host.raw("6C 00000000 02 05 00 0000"), "0 82000000000205420500");
}

/// Each value of a byte on its own: what 61h says of it.
#[test]
fn each_byte_of_a_set() {
    let with = |protocol: u8, at: usize, byte: u8| {
        let mut parameters = if protocol == 0 { set(0, "11 00 00 0A 00") } else { set(1, "11 10 00 4D 00 20 00") };
        parameters.bytes[at - 10] = byte;
        parameters.fault()
    };
    // FI 7, 8, 14, 15 and DI 0, 7, 10 to 15 are reserved, the other twelve and eight are not.
    let fi = [true, true, true, true, true, true, true, false, false, true, true, true, true, true, false, false];
    let di = [false, true, true, true, true, true, true, false, true, true, false, false, false, false, false, false];
    for byte in 0..=255u8 {
        let good = fi[usize::from(byte / 16)] && di[usize::from(byte % 16)];
        for protocol in [0, 1] {
            assert_eq!(with(protocol, 10, byte), if good { None } else { Some(0x0a) }, "{:02x}", byte);
            assert_eq!(with(protocol, 12, byte), None);
            assert_eq!(with(protocol, 14, byte), if byte < 4 { None } else { Some(0x0e) }, "{:02x}", byte);
        }
        assert_eq!(with(0, 11, byte), if byte < 4 { None } else { Some(0x0b) }, "{:02x}", byte);
        assert_eq!(with(1, 11, byte), if (0x10..0x14).contains(&byte) { None } else { Some(0x0b) }, "{:02x}", byte);
        assert_eq!(with(0, 13, byte), None);
        assert_eq!(with(1, 13, byte), if byte < 0xa0 { None } else { Some(0x0d) }, "{:02x}", byte);
        assert_eq!(with(1, 15, byte), None);
        assert_eq!(with(1, 16, byte), if byte == 0 { None } else { Some(0x10) }, "{:02x}", byte);
    }
    // A protocol number fits its own length alone.
    for protocol in 0..=255u8 {
        for length in 0..=9 {
            let fits = (protocol, length) == (0, 5) || (protocol, length) == (1, 7);
            let parameters = Parameters { protocol, bytes: vec![0x11; length] };
            assert_eq!(parameters.fault() == Some(0x07), !fits, "{} {}", protocol, length);
        }
    }
}

// ---- stored sets

/// A stored set is sound where 61h would take it; with no card it is the default.
#[test]
fn stored_sets() {
    let card = Slot { kind: 30, active: true, selected: 6, open: true, tries: 3, ..Slot::empty() };
    let with = |slot: &Slot, parameters: &Parameters, image: &[u8], message: &str| {
        try_it(&Slot { parameters: parameters.clone(), ..slot.clone() }, image, &bytes(message), 271)
    };
    let status = "65 00000000 00 00 000000";
    for good in [set(0, "12 00 00 0A 00"), set(1, "95 10 00 4D 00 20 00")] {
        assert_eq!(with(&card, &good, &sle4442(7), status), Ok(10));
        assert_eq!(with(&Slot::empty(), &good, &[], status), Err(4));
    }
    for (protocol, bytes) in [
        (0, "71 00 00 0A 00"),
        (0, "10 00 00 0A 00"),
        (0, "11 10 00 0A 00"),
        (0, "11 00 00 0A 04"),
        (0, "11 00 00 0A 00 00 00"),
        (1, "11 00 00 0A 00"),
        (1, "95 10 00 AD 00 20 00"),
        (1, "95 10 00 4D 00 20 01"),
        (2, "11 00 00 0A 00 00 00"),
    ] {
        let bad = set(protocol, bytes);
        assert_eq!(with(&card, &bad, &[], status), Err(3), "{}", bytes);
        // No message mends it, 6Dh and 62h as little as the others.
        for message in [status, RESET, POWER_ON, GET, SET_T0] {
            assert_eq!(with(&card, &bad, &sle4442(7), message), Err(4), "{}", bytes);
        }
    }
}

/// An insertion does not look at the set, and a removal at nothing.
#[test]
fn the_default_returns_over_any_set() {
    for odd in [set(2, "FF"), set(0, ""), set(1, "95 10 00 4D 00 20 00")] {
        let mut slot = Slot { parameters: odd.clone(), ..Slot::empty() };
        assert_eq!(reader::insert(&mut slot, 1, &[0; 128]), Ok(()));
        assert_eq!(slot, Slot { kind: 1, ..Slot::empty() });
        let full = Slot { kind: 9, active: true, selected: 3, page: 7, open: true, parameters: odd, ..Slot::empty() };
        let mut slot = full.clone();
        assert_eq!(reader::insert(&mut slot, 1, &[0; 128]), Err(5));
        assert_eq!(slot, full);
        reader::remove(&mut slot);
        assert_eq!(slot, Slot::empty());
    }
    let empty = bytes("00 00 00 08 00 00 11 00 00 0A 00 00 00");
    assert_eq!(case::raw(&Slot::empty()), [&empty[..], &[0; 19]].concat()[..]);
}

#[test]
fn trial_lines() {
    let mut case = Case {
        call: Call::Message,
        record: raw(&[30, 0, 0, 16, 0], 3, 0),
        buffer: 271,
        fill: 0xee,
        message: bytes("61 07000000 00 03 01 0000 95 11 FF 9F 03 FE 00"),
        image: sle4442(7),
    };
    // The seven bytes of T=1 stand in bytes 6 to 12 of the record afterwards.
    let t1 = "1e00001000019511ff9f03fe0003".to_string() + &"00".repeat(18);
    let buffer = "8207000000000301000195".to_string() + "11ff9f03fe00" + &"ee".repeat(254);
    assert_eq!(case.line(), format!("0 17 {} {}", t1, buffer));
    // From T=1 to T=0 the two bytes that it lacks become 00h.
    case.record[5..13].copy_from_slice(&bytes("01 95 11 FF 9F 03 FE 00"));
    case.message = bytes("61 05000000 00 03 00 0000 D9 03 00 FF 03");
    let t0 = "1e0000100000d90300ff03000003".to_string() + &"00".repeat(18);
    let buffer = "82050000000003010000d90300ff03".to_string() + &"ee".repeat(256);
    assert_eq!(case.line(), format!("0 15 {} {}", t0, buffer));
    case.message = bytes("6D 00000000 00 03 000000");
    let buffer = "820500000000030100001100000a00".to_string() + &"ee".repeat(256);
    let standard = "1e00001000001100000a00000003".to_string() + &"00".repeat(18);
    assert_eq!(case.line(), format!("0 15 {} {}", standard, buffer));
    // Power off keeps the set, power on does not.
    case.message = bytes("63 00000000 00 03 000000");
    assert_eq!(case.line(), format!("0 10 {} {}", t1, "81000000000003010001".to_string() + &"ee".repeat(261)));
    case.message = bytes("62 00000000 00 03 000000");
    let on = "1e01001000001100000a00000003".to_string() + &"00".repeat(18);
    let buffer = "800600000000030000003b04a2131091".to_string() + &"ee".repeat(255);
    assert_eq!(case.line(), format!("0 16 {} {}", on, buffer));
    // A failed message changes no byte of the record.
    case.message = bytes("61 07000000 00 03 01 0000 95 11 FF AF 03 FE 00");
    assert_eq!(case.line(), format!("0 10 {} {}", t1, "82000000000003410d00".to_string() + &"ee".repeat(261)));
}

#[test]
fn unsound_sets_in_raw_records() {
    let refused = |first: &[u8; 5], set: &str| {
        let mut record = raw(first, if first[0] == 30 { 3 } else { 0 }, 0);
        record[5..13].copy_from_slice(&bytes(set));
        let message = bytes("6D 00000000 00 00 000000");
        let case = Case { call: Call::Message, record, buffer: 271, fill: 0, message, image: sle4442(7) };
        &case.line()[..4] == "4 0 "
    };
    let card = [30, 0, 0, 8, 0];
    for set in [
        "02 11 00 00 0A 00 00 00", // no protocol
        "80 11 00 00 0A 00 00 00",
        "00 11 00 00 0A 00 01 00", // T=0 lacks the last two
        "00 11 00 00 0A 00 00 01",
        "01 11 00 00 0A 00 00 00", // the bytes of the other protocol
        "00 95 10 00 4D 00 20 00",
        "00 81 00 00 0A 00 00 00", // FI, DI
        "01 17 10 00 4D 00 20 00",
        "00 11 04 00 0A 00 00 00", // checksum byte, BWI, clock stop, NAD
        "01 95 14 00 4D 00 20 00",
        "01 95 10 00 A0 00 20 00",
        "00 11 00 00 0A 04 00 00",
        "01 95 10 00 4D 80 20 00",
        "01 95 10 00 4D 00 20 01",
    ] {
        assert!(refused(&card, set), "{}", set);
    }
    for set in
        ["00 11 00 00 0A 00 00 00", "00 D9 03 FF FF 03 00 00", "01 95 13 FF 9F 03 FF 00", "01 01 10 00 00 00 00 00"]
    {
        assert!(!refused(&card, set), "{}", set);
    }
    // With no card any other set than the default, good as it is.
    let empty = [0, 0, 0, 8, 0];
    assert!(!refused(&empty, "00 11 00 00 0A 00 00 00"));
    for set in [
        "00 00 00 00 00 00 00 00",
        "00 12 00 00 0A 00 00 00",
        "00 11 01 00 0A 00 00 00",
        "00 11 00 01 0A 00 00 00",
        "00 11 00 00 0B 00 00 00",
        "00 11 00 00 0A 01 00 00",
        "00 11 00 00 0A 00 00 20",
        "01 95 10 00 4D 00 20 00",
    ] {
        assert!(refused(&empty, set), "{}", set);
    }
}
