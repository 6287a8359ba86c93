//! The zones, and the duty that a zone asks.

/// Words: "80h is a fault in whichever zone".
const FAULT: u8 = 0x80;
/// Registers: "absolute limit of zones 1 to 3, 80h: none".
const NO_LIMIT: u8 = 0x80;
/// Duty: "R by bits 7..4, a fixed table", in hundredths of a degree.
const RANGES: [i32; 16] = [
    200, 250, 333, 400, 500, 667, 800, 1000, 1333, 1600, 2000, 2667, 3200, 4000, 5333, 8000,
];

/// One zone by its registers: 25h, 5Fh, 67h and 6Ah, each + z - 1 for zone z.
#[derive(Clone, Copy, Debug, PartialEq, Eq)]
pub struct Zone {
    pub temperature: u8,
    pub configuration: u8,
    pub low_limit: u8,
    pub absolute_limit: u8,
}

impl Zone {
    /// Registers, column Power-on.
    pub fn power_on() -> Zone {
        Zone {
            temperature: 0x80,
            configuration: 0xC3,
            low_limit: 0x80,
            absolute_limit: 0x64,
        }
    }

    /// Duty: "a linked zone is at 80h".
    pub fn is_at_fault(&self) -> bool {
        self.temperature == FAULT
    }

    /// Duty: "at or above its absolute limit, that limit not being 80h".
    pub fn is_at_absolute_limit(&self) -> bool {
        self.absolute_limit != NO_LIMIT && degrees(self.temperature) >= degrees(self.absolute_limit)
    }

    /// Duty: R, in hundredths of a degree.
    pub fn range(&self) -> i32 {
        RANGES[usize::from(self.configuration >> 4)]
    }

    /// Duty: "M where T is at or below L", else "M + (255 - M) x min(100 (T - L), R) / R", whole part.
    pub fn asks(&self, minimum: u8) -> u8 {
        let above = degrees(self.temperature) - degrees(self.low_limit);
        if above <= 0 {
            return minimum;
        }
        let (m, r) = (i32::from(minimum), self.range());
        let duty = m + (255 - m) * r.min(100 * above) / r;
        u8::try_from(duty).expect("M plus at most 255 - M")
    }
}

/// Words: "A temperature is a signed byte, -128 to 127".
fn degrees(byte: u8) -> i32 {
    if byte < 128 {
        i32::from(byte)
    } else {
        i32::from(byte) - 256
    }
}
