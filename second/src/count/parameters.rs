//! What is counted of parameter sets: those that 61h brings, and those that the slot record has.

use super::{Before, Count, SUPPORTED};
use crate::parameters::{Parameters, RESERVED_DI, RESERVED_FI};
use crate::random::{DI, FI, SET_FAULTS};

const SETS: [&str; 3] = ["the default", "another T=0 set", "a T=1 set"];

/// Which of these a good set is.
fn which(set: &Parameters) -> &'static str {
    match set.protocol {
        _ if *set == Parameters::default() => SETS[0],
        0 => SETS[1],
        _ => SETS[2],
    }
}

/// The bErrors of a 61h in the order of the faults.
const ERRORS: [u8; 9] = [0x01, 0x05, 0x07, 0x0a, 0x0b, 0x0d, 0x0e, 0x10, 0xfe];

/// All of these that a 61h deserves, not the first alone. A set that does not fit its protocol number
/// is laid out by its length.
fn deserved(before: &Before, message: &[u8]) -> Vec<u8> {
    let (protocol, set) = (message[7], &message[10..]);
    let t1 = set.len() >= 7;
    let at = |offset: usize| message.get(offset).copied();
    let holds = |error: u8| match error {
        0x01 => message[1..5] != (set.len() as u32).to_le_bytes() || ![5, 7].contains(&set.len()),
        0x05 => message[5] != 0,
        0x07 => ![(0, 5), (1, 7)].contains(&(protocol, set.len())),
        0x0a => at(10).map_or(false, |byte| RESERVED_FI.contains(&(byte >> 4)) || RESERVED_DI.contains(&(byte & 15))),
        0x0b => at(11).map_or(false, |byte| byte & 0xfc != if t1 { 0x10 } else { 0x00 }),
        0x0d => at(13).map_or(false, |byte| t1 && byte >= 0xa0),
        0x0e => at(14).map_or(false, |byte| byte > 3),
        0x10 => at(16).map_or(false, |byte| byte != 0),
        _ => before.slot.kind == 0,
    };
    ERRORS.iter().copied().filter(|&error| holds(error)).collect()
}

impl Count {
    /// An answered message, beside the set that was stored before it.
    pub(super) fn parameters(&mut self, before: &Before, message: &[u8], answer: &[u8]) {
        let (kind, status, error) = (message[0], answer[7], answer[8]);
        let failed = status & 0x40 != 0;
        let how = if failed { "failed" } else { "success" };
        self.add(format!("{:02X}h, {} stored: {}", kind, which(&before.slot.parameters), how));
        if answer[0] == 0x82 && failed {
            self.add(format!("82h failed, bStatus {:02X}h", status));
        }
        if kind == 0x61 && failed {
            self.refused_set(before, message, error);
        } else if kind == 0x61 {
            let set = Parameters { protocol: message[7], bytes: message[10..].to_vec() };
            self.add(format!("61h takes {}", which(&set)));
            self.values_of_set("61h takes", &set);
        }
    }

    /// A 61h that failed: what was wrong with it, and which later faults it had too.
    fn refused_set(&mut self, before: &Before, message: &[u8], error: u8) {
        for later in deserved(before, message).iter().skip(1) {
            self.add(format!("61h: {:02X}h before {:02X}h", error, later));
        }
        let said = u32::from_le_bytes([message[1], message[2], message[3], message[4]]);
        let (protocol, set) = (message[7], &message[10..]);
        let layout = if set.len() == 7 { "T=1" } else { "T=0" };
        self.add(match error {
            0x01 => format!("61h: dwLength {}, {} bytes came", said, set.len()),
            0x07 => format!("61h: protocol {:02X}h, {} bytes", protocol, set.len()),
            0x0a => match (RESERVED_FI.contains(&(set[0] >> 4)), RESERVED_DI.contains(&(set[0] & 15))) {
                (true, true) => "61h: FI and DI reserved".to_string(),
                (true, false) => format!("61h: FI {}", set[0] >> 4),
                (false, _) => format!("61h: DI {}", set[0] & 15),
            },
            0x0b if [0x00, 0x10].contains(&(set[1] & 0xfc)) => format!("61h: {}, checksum byte of the other", layout),
            0x0b => format!("61h: {}, other checksum byte", layout),
            0x0d => format!("61h: BWI {}", if set[3] >> 4 == 10 { "10" } else { "above 10" }),
            0x0e => format!("61h: {}, clock stop {}", layout, if set[4] == 4 { "4" } else { "above 4" }),
            0x10 => format!("61h: NAD {}", if set[6] == 1 { "1" } else { "above 1" }),
            _ => return,
        });
    }

    /// The values of a good set, each on its own.
    pub(super) fn values_of_set(&mut self, who: &str, set: &Parameters) {
        let (t, bytes) = (set.protocol, &set.bytes);
        self.add(format!("{}: FI {}", who, bytes[0] >> 4));
        self.add(format!("{}: DI {}", who, bytes[0] & 15));
        self.add(format!("{}: T={}, low bits {}", who, t, bytes[1] & 3));
        self.add(format!("{}: T={}, clock stop {}", who, t, bytes[4]));
        if bytes[2] == 0xff {
            self.add(format!("{}: T={}, guard time FFh", who, t));
        }
        match t {
            0 if bytes[3] >= 0xa0 => self.add(format!("{}: T=0, WI above 9Fh", who)),
            1 if bytes[3] >= 0x90 => self.add(format!("{}: T=1, BWI 9", who)),
            _ => {}
        }
        if t == 1 && [0x00, 0xff].contains(&bytes[5]) {
            self.add(format!("{}: T=1, IFSC {:02X}h", who, bytes[5]));
        }
    }
}

/// What both kinds of run have to reach with answered messages.
pub(super) fn answers() -> Vec<String> {
    let mut goals = Vec::new();
    let mut goal = |text: String| goals.push(text);
    for kind in SUPPORTED {
        for set in SETS {
            goal(format!("{}, {} stored: success", kind, set));
            goal(format!("{}, {} stored: failed", kind, set));
        }
    }
    for kind in ["61h", "6Ch", "6Dh"] {
        goal(format!("bError 05h: {}, no card", kind));
        goal(format!("bError FEh: {}, no card", kind));
        goal(format!("{}, inactive: success", kind));
        goal(format!("{}, active: success", kind));
    }
    goal("bError 01h: data for 6Ch".to_string());
    goal("bError 01h: data for 6Dh".to_string());
    for length in [0, 4, 6, 8] {
        goal(format!("bError 01h: 61h of {} bytes", length));
    }
    for error in ["07h", "0Ah", "0Bh", "0Dh", "0Eh", "10h"] {
        goal(format!("bError {}: 61h, inactive", error));
        goal(format!("bError {}: 61h, active", error));
    }
    for status in [0x40, 0x41, 0x42] {
        goal(format!("82h failed, bStatus {:02X}h", status));
    }
    for set in SETS {
        goal(format!("61h takes {}", set));
    }
    goals.extend(refused_sets());
    goals.extend(values_of_sets("61h takes"));
    goals
}

/// The faults of a 61h, each value and each two of them.
fn refused_sets() -> Vec<String> {
    let mut goals = Vec::new();
    let mut goal = |text: String| goals.push(format!("61h: {}", text));
    for (said, came) in [(5, 6), (5, 7), (7, 5), (7, 6), (7, 8)] {
        goal(format!("dwLength {}, {} bytes came", said, came));
    }
    for (protocol, length) in [(0x00, 7), (0x01, 5), (0x02, 5), (0x02, 7), (0x80, 5), (0x80, 7)] {
        goal(format!("protocol {:02X}h, {} bytes", protocol, length));
    }
    for fi in RESERVED_FI {
        goal(format!("FI {}", fi));
    }
    for di in RESERVED_DI {
        goal(format!("DI {}", di));
    }
    for layout in ["T=0", "T=1"] {
        for what in ["checksum byte of the other", "other checksum byte", "clock stop 4", "clock stop above 4"] {
            goal(format!("{}, {}", layout, what));
        }
    }
    for what in ["FI and DI reserved", "BWI 10", "BWI above 10", "NAD 1", "NAD above 1"] {
        goal(what.to_string());
    }
    for (k, first) in ERRORS.iter().enumerate() {
        for later in &ERRORS[k + 1..] {
            goal(format!("{:02X}h before {:02X}h", first, later));
        }
    }
    goals
}

/// The values of good sets.
fn values_of_sets(who: &str) -> Vec<String> {
    let mut goals = Vec::new();
    let mut goal = |text: String| goals.push(format!("{}: {}", who, text));
    for fi in FI {
        goal(format!("FI {}", fi));
    }
    for di in DI {
        goal(format!("DI {}", di));
    }
    for t in ["T=0", "T=1"] {
        for k in 0..4 {
            goal(format!("{}, low bits {}", t, k));
            goal(format!("{}, clock stop {}", t, k));
        }
        goal(format!("{}, guard time FFh", t));
    }
    for what in ["T=0, WI above 9Fh", "T=1, BWI 9", "T=1, IFSC 00h", "T=1, IFSC FFh"] {
        goal(what.to_string());
    }
    goals
}

/// What a run of sessions has to reach: a card goes out or does not go in over a set other than the
/// default, and a 6Ch shows the set after all that keeps it, sets it or brings the default back.
pub(super) fn in_sessions() -> Vec<String> {
    [
        "out 0: a card with another set",
        "in 5: a card with another set",
        "6Ch after 61h",
        "6Ch after 62h over another set",
        "6Ch after 63h over another set",
        "6Ch after 6Dh over another set",
        "6Ch after out and in over another set",
        "6Ch after in 5 over another set",
        "6Ch after 61h failed over another set",
        "6Ch after 62h failed over another set",
        "6Ch after 6Dh failed over another set",
    ]
    .iter()
    .map(|what| what.to_string())
    .collect()
}

/// What a run of trial cases has to reach: every fault of a stored set, whatever the message, and
/// every value of a sound one.
pub(super) fn in_cases() -> Vec<String> {
    let mut goals = values_of_sets("sound");
    goals.extend(SET_FAULTS.iter().map(|fault| format!("4: {}", fault.name)));
    goals.extend(SUPPORTED.iter().map(|kind| format!("4: an unsound set, {}", kind)));
    goals
}
