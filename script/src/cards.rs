//! The cards by name and number, and where the parts of an image are.

pub struct Kind {
    pub name: &'static str,
    pub told: &'static str,
    pub number: u8,
    pub image: usize,
    pub memory: usize,
    pub own_type: u8,
    /// How many memory bytes, from 0 on, have a protection bit. The protection bytes follow the memory.
    pub protectable: usize,
    pub code: Option<Code>,
}

/// The code of a code card and its counter, and where they are in the image.
pub struct Code {
    pub full: u8,
    pub counter: usize,
    pub place: usize,
    pub bytes: usize,
}

impl Kind {
    /// Whether a record of the session program can hold its image beside the kind byte. The session
    /// program takes a kind that does not fit as unknown.
    pub fn fits_a_record(&self) -> bool {
        self.image <= 32_768
    }

    /// Whether its addresses have 17 bits: B0 and D0 carry the top bit 0, B1 and D1 carry it 1.
    pub fn has_top_bit(&self) -> bool {
        self.memory > 65_536
    }
}

/// An I2C card is memory alone.
const fn i2c(name: &'static str, told: &'static str, number: u8, bytes: usize, own_type: u8) -> Kind {
    Kind { name, told, number, image: bytes, memory: bytes, own_type, protectable: 0, code: None }
}

static KINDS: [Kind; 15] = [
    i2c("i2c1", "I2C of 1 kbit", 1, 128, 0x01),
    i2c("i2c2", "I2C of 2 kbit", 2, 256, 0x01),
    i2c("i2c4", "I2C of 4 kbit", 3, 512, 0x01),
    i2c("i2c8", "I2C of 8 kbit", 4, 1024, 0x01),
    i2c("i2c16", "I2C of 16 kbit", 5, 2048, 0x01),
    i2c("i2c32", "I2C of 32 kbit", 6, 4096, 0x02),
    i2c("i2c64", "I2C of 64 kbit", 7, 8192, 0x02),
    i2c("i2c128", "I2C of 128 kbit", 8, 16384, 0x02),
    i2c("i2c256", "I2C of 256 kbit", 9, 32768, 0x02),
    i2c("i2c512", "I2C of 512 kbit", 10, 65536, 0x02),
    i2c("i2c1024", "I2C of 1024 kbit", 11, 131072, 0x02),
    Kind {
        name: "sle4428",
        told: "SLE4428",
        number: 20,
        image: 1152,
        memory: 1024,
        own_type: 0x05,
        protectable: 1024,
        code: Some(Code { full: 0xff, counter: 0x3fd, place: 0x3fe, bytes: 2 }),
    },
    Kind {
        name: "sle4418",
        told: "SLE4418",
        number: 21,
        image: 1152,
        memory: 1024,
        own_type: 0x05,
        protectable: 1024,
        code: None,
    },
    Kind {
        name: "sle4442",
        told: "SLE4442",
        number: 30,
        image: 264,
        memory: 256,
        own_type: 0x06,
        protectable: 32,
        code: Some(Code { full: 0x07, counter: 260, place: 261, bytes: 3 }),
    },
    Kind {
        name: "sle4432",
        told: "SLE4432",
        number: 31,
        image: 264,
        memory: 256,
        own_type: 0x06,
        protectable: 32,
        code: None,
    },
];

/// All cards.
pub fn all() -> &'static [Kind] {
    &KINDS
}

/// The card of a name.
pub fn named(name: &str) -> Option<&'static Kind> {
    KINDS.iter().find(|kind| kind.name == name)
}

/// The card of a kind's number.
pub fn numbered(number: u8) -> Option<&'static Kind> {
    KINDS.iter().find(|kind| kind.number == number)
}
