//! Cases, and the lines that must be written for them.

/// What a program is given on standard input, and what it must write.
#[derive(Default)]
pub struct Script {
    pub cases: Vec<u8>,
    pub lines: String,
}

impl Script {
    /// A case of a test program: a letter that says which, a byte n, and n bytes. Its line may be several.
    pub fn add(&mut self, which: u8, data: &[u8], line: &str) {
        self.cases.extend([which, byte(data.len())]);
        self.cases.extend(data);
        self.line(line);
    }

    /// A case that is a line of text, and the line that answers it.
    pub fn add_text(&mut self, case: &str, line: &str) {
        self.cases.extend(case.bytes());
        self.cases.push(b'\n');
        self.line(line);
    }

    fn line(&mut self, line: &str) {
        self.lines.push_str(line);
        self.lines.push('\n');
    }
}

/// A number that a case has in one byte.
pub fn byte(number: impl TryInto<u8>) -> u8 {
    number.try_into().ok().expect("the number fits in a byte")
}

/// A place or a length in one byte: up to 127 itself, from 128 on counted down from the largest that there is.
pub fn code(number: usize) -> u8 {
    byte(if number < 128 {
        number
    } else {
        255 - (usize::MAX - number)
    })
}

/// Two digits a byte.
pub fn hex(bytes: &[u8]) -> String {
    bytes.iter().map(|byte| format!("{byte:02x}")).collect()
}

/// Two digits a byte, or a word where there is none.
pub fn hex_or(none: &str, bytes: &[u8]) -> String {
    if bytes.is_empty() {
        none.into()
    } else {
        hex(bytes)
    }
}

/// The bytes that are written in hex, with spaces anywhere.
pub fn bytes(hex: &str) -> Vec<u8> {
    let digits: Vec<u8> = hex
        .chars()
        .filter(|c| !c.is_whitespace())
        .map(|c| byte(c.to_digit(16).expect("a hex digit")))
        .collect();
    digits.chunks(2).map(|pair| pair[0] << 4 | pair[1]).collect()
}

/// Several rows of bytes in hex, with commas between them.
pub fn rows(hex: &str) -> Vec<Vec<u8>> {
    hex.split(',').map(bytes).collect()
}
