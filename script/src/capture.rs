//! A capture file of exchanges, as if the reader hung on USB: classic pcap, low byte first, of the link type of Linux's
//! usbmon. So a dissector can take the messages apart that knows CCID from USB alone. The device's descriptors come first,
//! since by them it tells a CCID reader from other devices.

use std::io::{self, Write};

/// The link type: usbmon's header of 48 bytes in front of each packet.
const LINK: u32 = 189;
const HEADER: usize = 48;

/// The first packet's time in seconds; each further one is a millisecond later.
const START: u64 = 1_000_000_000;

/// Whether a packet is handed to the bus or has come back from it.
const SUBMIT: u8 = b'S';
const COMPLETE: u8 = b'C';

/// Transfers, and their endpoints; the high bit is the direction to the host.
const CONTROL: u8 = 2;
const BULK: u8 = 3;
const SETUP_IN: u8 = 0x80;
const BULK_OUT: u8 = 0x01;
const BULK_IN: u8 = 0x82;

const DEVICE: [u8; 18] = [
    18, 1, // length, DEVICE
    0x00, 0x02, 0, 0, 0, 64, // USB 2.00, the class is the interface's, packets of 64 bytes
    0, 0, 0, 0, 0x00, 0x01, // no vendor, no product, release 1.00
    0, 0, 0, 1, // no texts, one configuration
];

/// One interface of class 0Bh with a bulk endpoint each way. CCID's class descriptor is left out: it tells of no message.
const CONFIGURATION: [u8; 32] = [
    9, 2, 32, 0, 1, 1, 0, 0x80,
    50, // length, CONFIGURATION, all of it, one interface, number 1, no text, bus power
    9, 4, 0, 0, 2, 0x0b, 0, 0, 0, // length, INTERFACE 0, two endpoints, CCID with bulk transfers
    7, 5, BULK_OUT, 2, 64, 0, 0, // length, ENDPOINT, bulk, packets of 64 bytes
    7, 5, BULK_IN, 2, 64, 0, 0,
];

/// A capture file that is being written.
pub struct Capture<W: Write> {
    output: W,
    packets: u64,
    transfers: u64,
}

/// A packet but for its data.
struct Packet {
    event: u8,
    transfer: u8,
    endpoint: u8,
    /// What a control transfer asks for, in the packet that is handed to the bus.
    setup: Option<[u8; 8]>,
}

impl<W: Write> Capture<W> {
    /// Writes the file's header and the descriptors, asked for and given.
    pub fn start(output: W) -> io::Result<Capture<W>> {
        let mut capture = Capture { output, packets: 0, transfers: 0 };
        let mut header = 0xa1b2_c3d4_u32.to_le_bytes().to_vec();
        header.extend([2, 0, 4, 0]); // version 2.4
        header.extend([0; 8]); // times are of UTC, and nothing is said of how exact they are
        header.extend(0x40000_u32.to_le_bytes()); // no packet is longer
        header.extend(LINK.to_le_bytes());
        capture.output.write_all(&header)?;
        capture.descriptor(1, &DEVICE)?;
        capture.descriptor(2, &CONFIGURATION)?;
        capture.output.flush()?;
        Ok(capture)
    }

    /// Writes a message and its answer.
    pub fn exchange(&mut self, message: &[u8], answer: &[u8]) -> io::Result<()> {
        for (event, endpoint, data) in [(SUBMIT, BULK_OUT, message), (COMPLETE, BULK_IN, answer)] {
            self.transfers += 1;
            self.packet(&Packet { event, transfer: BULK, endpoint, setup: None }, data.len(), data)?;
        }
        self.output.flush()
    }

    /// GET DESCRIPTOR of this type, and what comes back.
    fn descriptor(&mut self, number: u8, bytes: &[u8]) -> io::Result<()> {
        self.transfers += 1;
        let setup = Some([SETUP_IN, 6, 0, number, 0, 0, bytes.len() as u8, 0]);
        let asked = Packet { event: SUBMIT, transfer: CONTROL, endpoint: SETUP_IN, setup };
        let given = Packet { event: COMPLETE, transfer: CONTROL, endpoint: SETUP_IN, setup: None };
        self.packet(&asked, bytes.len(), &[])?;
        self.packet(&given, bytes.len(), bytes)
    }

    /// Writes a packet with these data of a transfer of so many bytes.
    fn packet(&mut self, packet: &Packet, whole: usize, data: &[u8]) -> io::Result<()> {
        let (seconds, micros) = (START + self.packets / 1000, 1000 * (self.packets % 1000) as u32);
        let length = (HEADER + data.len()) as u32;
        let in_progress = if packet.event == SUBMIT { -115_i32 } else { 0 };
        let mut bytes = (seconds as u32).to_le_bytes().to_vec();
        bytes.extend(micros.to_le_bytes());
        bytes.extend(length.to_le_bytes()); // as long here as it was
        bytes.extend(length.to_le_bytes());
        bytes.extend(self.transfers.to_le_bytes());
        bytes.extend([packet.event, packet.transfer, packet.endpoint, 1, 1, 0]); // device 1 on bus 1
        bytes.push(if packet.setup.is_some() { 0 } else { b'-' });
        bytes.push(if data.is_empty() { b'<' } else { 0 });
        bytes.extend(seconds.to_le_bytes());
        bytes.extend(micros.to_le_bytes());
        bytes.extend(in_progress.to_le_bytes());
        bytes.extend((whole as u32).to_le_bytes());
        bytes.extend((data.len() as u32).to_le_bytes());
        bytes.extend(packet.setup.unwrap_or_default());
        bytes.extend_from_slice(data);
        self.packets += 1;
        self.output.write_all(&bytes)
    }
}

#[cfg(test)]
mod tests;
