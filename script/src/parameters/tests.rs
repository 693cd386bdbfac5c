use super::*;

const DEFAULT: [u8; 5] = [0x11, 0x00, 0x00, 0x0a, 0x00];
const T1: [u8; 7] = [0x11, 0x10, 0x00, 0x4d, 0x00, 0x20, 0x00];

/// What is told of a set in which the byte at an offset of the message is another one.
fn with(protocol: u8, offset: usize, byte: u8) -> String {
    let mut set = if protocol == 0 { DEFAULT.to_vec() } else { T1.to_vec() };
    set[offset - 10] = byte;
    told(protocol, &set)
}

#[test]
fn both_protocols() {
    assert_eq!(
        told(0, &DEFAULT),
        "T=0: F 372 (FI 1), D 1 (DI 1), direct convention, extra guard time 0 etu, WI 10, clock stop not allowed"
    );
    assert_eq!(
        told(1, &T1),
        "T=1: F 372 (FI 1), D 1 (DI 1), direct convention, checksum LRC, extra guard time 0 etu, BWI 4, CWI 13, \
         clock stop not allowed, IFSC 32, NAD 00"
    );
    assert_eq!(
        told(0, &[0x95, 0x02, 0x07, 0xff, 0x03]),
        "T=0: F 512 (FI 9), D 16 (DI 5), inverse convention, extra guard time 7 etu, WI 255, clock stop low or high"
    );
    assert_eq!(
        told(1, &[0xd9, 0x13, 0xff, 0x9f, 0x02, 0xfe, 0x00]),
        "T=1: F 2048 (FI 13), D 20 (DI 9), inverse convention, checksum CRC, guard time less by 1 etu (FF), BWI 9, \
         CWI 15, clock stop high, IFSC 254, NAD 00"
    );
}

/// Each entry of the two tables, reserved ones too.
#[test]
fn rates() {
    let clock = [372, 372, 558, 744, 1116, 1488, 1860, 0, 0, 512, 768, 1024, 1536, 2048, 0, 0];
    let baud = [0, 1, 2, 4, 8, 16, 32, 0, 12, 20, 0, 0, 0, 0, 0, 0];
    let name = |entry: u16| if entry == 0 { "reserved".to_string() } else { entry.to_string() };
    for byte in 0..=255_u8 {
        let (fi, di) = (usize::from(byte / 16), usize::from(byte % 16));
        let wanted = format!("F {} (FI {}), D {} (DI {})", name(clock[fi]), fi, name(baud[di]), di);
        assert_eq!(told_rates(byte), wanted);
    }
}

/// Each field that can be told in more than one way, in both protocols.
#[test]
fn fields() {
    for (protocol, offset, byte, text) in [
        (0, 11, 0x02, ", inverse convention, extra"),
        (0, 11, 0x01, ", direct convention, bit 0 of byte 11 set, extra"),
        (0, 11, 0x10, ", direct convention, upper bits 000100b (not 000000b), extra"),
        (0, 11, 0xff, ", inverse convention, bit 0 of byte 11 set, upper bits 111111b (not 000000b), extra"),
        (1, 11, 0x11, ", direct convention, checksum CRC, extra"),
        (1, 11, 0x12, ", inverse convention, checksum LRC, extra"),
        (1, 11, 0x00, ", direct convention, checksum LRC, upper bits 000000b (not 000100b), extra"),
        (0, 12, 0xfe, ", extra guard time 254 etu, WI"),
        (0, 12, 0xff, ", extra guard time 0 etu (FF is as 00), WI"),
        (1, 12, 0xfe, ", extra guard time 254 etu, BWI"),
        (1, 12, 0xff, ", guard time less by 1 etu (FF), BWI"),
        (0, 13, 0xa0, ", WI 160, clock"),
        (1, 13, 0x90, ", BWI 9, CWI 0, clock"),
        (1, 13, 0xaf, ", BWI 10 (above 9), CWI 15, clock"),
        (0, 14, 0x01, ", clock stop low"),
        (0, 14, 0x02, ", clock stop high"),
        (0, 14, 0x04, ", clock stop 04 (above 3)"),
        (1, 14, 0x03, ", clock stop low or high, IFSC"),
        (1, 14, 0xff, ", clock stop FF (above 3), IFSC"),
        (1, 15, 0xff, ", IFSC 255, NAD 00"),
        (1, 16, 0x01, ", IFSC 32, NAD 01 (not 00)"),
    ] {
        let set = with(protocol, offset, byte);
        assert!(set.contains(text), "{} has no '{}'", set, text);
    }
}

/// Bytes that are no set say why; whatever they are, something is told.
#[test]
fn no_sets() {
    assert_eq!(told(0, &T1), "no set: T=0 has 5 bytes, and these are 7");
    assert_eq!(told(1, &DEFAULT), "no set: T=1 has 7 bytes, and these are 5");
    assert_eq!(told(0, &[]), "no set: T=0 has 5 bytes, and these are 0");
    assert_eq!(told(0x82, &DEFAULT), "no set: protocol number 82 is neither T=0 nor T=1");
    for protocol in 0..=255 {
        for length in 0..12 {
            for byte in 0..=255 {
                assert!(!told(protocol, &vec![byte; length]).is_empty());
            }
        }
    }
}

#[test]
fn errors() {
    for (code, text) in [
        (0x07, "the protocol number does not fit the number of bytes"),
        (0x0a, "byte 10: FI or DI is reserved"),
        (0x0b, "byte 11: the upper six bits are not those of the protocol"),
        (0x0d, "byte 13: BWI is above 9"),
        (0x0e, "byte 14: the clock stop is above 3"),
        (0x10, "byte 16: NAD is not 0"),
        (0xfe, "there is no card"),
    ] {
        assert_eq!(error(code), Some(text));
    }
    for code in [0x00, 0x08, 0x0c, 0x0f, 0x11] {
        assert_eq!(error(code), None);
    }
}
