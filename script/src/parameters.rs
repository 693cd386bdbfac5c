//! A slot's parameter set in words, field by field. Its bytes stand at offsets 10 to 14 of a message
//! or an answer for T=0, at 10 to 16 for T=1.

/// The set of a protocol number and its bytes, or why they are none.
pub fn told(protocol: u8, set: &[u8]) -> String {
    match (protocol, set) {
        (0, &[rates, check, guard, waiting, stop]) => {
            format!(
                "T=0: {}, {}, {}, WI {}, {}",
                told_rates(rates),
                told_check_0(check),
                told_guard_0(guard),
                waiting,
                told_stop(stop)
            )
        }
        (1, &[rates, check, guard, waiting, stop, ifsc, nad]) => {
            format!(
                "T=1: {}, {}, {}, {}, {}, IFSC {}, {}",
                told_rates(rates),
                told_check_1(check),
                told_guard_1(guard),
                told_waiting_1(waiting),
                told_stop(stop),
                ifsc,
                told_nad(nad)
            )
        }
        (0, _) => format!("no set: T=0 has 5 bytes, and these are {}", set.len()),
        (1, _) => format!("no set: T=1 has 7 bytes, and these are {}", set.len()),
        _ => format!("no set: protocol number {:02X} is neither T=0 nor T=1", protocol),
    }
}

/// What a bError says that only an answer of parameters has, or says in its own way.
pub fn error(error: u8) -> Option<&'static str> {
    match error {
        0x07 => Some("the protocol number does not fit the number of bytes"),
        0x0a => Some("byte 10: FI or DI is reserved"),
        0x0b => Some("byte 11: the upper six bits are not those of the protocol"),
        0x0d => Some("byte 13: BWI is above 9"),
        0x0e => Some("byte 14: the clock stop is above 3"),
        0x10 => Some("byte 16: NAD is not 0"),
        0xfe => Some("there is no card"),
        _ => None,
    }
}

/// Byte 10: FI in the high four bits, DI in the low four.
fn told_rates(byte: u8) -> String {
    let (fi, di) = (byte >> 4, byte & 0x0f);
    format!("F {} (FI {}), D {} (DI {})", number(clock_rate(fi)), fi, number(baud_rate(di)), di)
}

/// An entry of a table, or that it is reserved.
fn number(entry: Option<u16>) -> String {
    entry.map_or("reserved".to_string(), |number| number.to_string())
}

/// F by FI: ISO/IEC 7816-3:1997, table 7.
fn clock_rate(fi: u8) -> Option<u16> {
    match fi {
        0 | 1 => Some(372),
        2 => Some(558),
        3 => Some(744),
        4 => Some(1116),
        5 => Some(1488),
        6 => Some(1860),
        9 => Some(512),
        10 => Some(768),
        11 => Some(1024),
        12 => Some(1536),
        13 => Some(2048),
        _ => None,
    }
}

/// D by DI: ISO/IEC 7816-3:1997, table 8.
fn baud_rate(di: u8) -> Option<u16> {
    match di {
        1 => Some(1),
        2 => Some(2),
        3 => Some(4),
        4 => Some(8),
        5 => Some(16),
        6 => Some(32),
        8 => Some(12),
        9 => Some(20),
        _ => None,
    }
}

/// Byte 11 of T=0: the convention. A bit 0 that is set is no fault, and is told.
fn told_check_0(byte: u8) -> String {
    let odd = if byte & 1 == 0 { "" } else { ", bit 0 of byte 11 set" };
    format!("{}{}{}", convention(byte), odd, told_upper(byte, 0b000000))
}

/// Byte 11 of T=1: the convention and the checksum.
fn told_check_1(byte: u8) -> String {
    let checksum = if byte & 1 == 0 { "LRC" } else { "CRC" };
    format!("{}, checksum {}{}", convention(byte), checksum, told_upper(byte, 0b000100))
}

fn convention(byte: u8) -> &'static str {
    if byte & 2 == 0 {
        "direct convention"
    } else {
        "inverse convention"
    }
}

/// The upper six bits of byte 11, where they are not those of the protocol.
fn told_upper(byte: u8, own: u8) -> String {
    if byte >> 2 == own {
        String::new()
    } else {
        format!(", upper bits {:06b}b (not {:06b}b)", byte >> 2, own)
    }
}

/// Byte 12 of T=0: FFh is the same as 00h.
fn told_guard_0(byte: u8) -> String {
    match byte {
        0xff => "extra guard time 0 etu (FF is as 00)".to_string(),
        _ => format!("extra guard time {} etu", byte),
    }
}

/// Byte 12 of T=1: FFh takes one etu away.
fn told_guard_1(byte: u8) -> String {
    match byte {
        0xff => "guard time less by 1 etu (FF)".to_string(),
        _ => format!("extra guard time {} etu", byte),
    }
}

/// Byte 13 of T=1: BWI in the high four bits, CWI in the low four.
fn told_waiting_1(byte: u8) -> String {
    let (bwi, cwi) = (byte >> 4, byte & 0x0f);
    format!("BWI {}{}, CWI {}", bwi, if bwi > 9 { " (above 9)" } else { "" }, cwi)
}

/// Byte 14: whether and how the card's clock may be stopped.
fn told_stop(byte: u8) -> String {
    match byte {
        0 => "clock stop not allowed".to_string(),
        1 => "clock stop low".to_string(),
        2 => "clock stop high".to_string(),
        3 => "clock stop low or high".to_string(),
        _ => format!("clock stop {:02X} (above 3)", byte),
    }
}

/// Byte 16 of T=1.
fn told_nad(byte: u8) -> String {
    format!("NAD {:02X}{}", byte, if byte == 0 { "" } else { " (not 00)" })
}

#[cfg(test)]
mod tests;
