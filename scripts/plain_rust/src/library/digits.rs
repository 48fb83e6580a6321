//! Numbers in decimal digits.

/// Room for the digits of a number.
pub struct Buffer([u8; 39]);

/// A number of at most 128 bits.
pub trait Number {
    fn number(self) -> u128;
}

impl Number for usize {
    fn number(self) -> u128 {
        self as u128
    }
}

impl Number for u128 {
    fn number(self) -> u128 {
        self
    }
}

impl Number for u64 {
    fn number(self) -> u128 {
        self.into()
    }
}

impl Number for u32 {
    fn number(self) -> u128 {
        self.into()
    }
}

impl Buffer {
    pub fn new() -> Buffer {
        Buffer([b'0'; 39])
    }

    pub fn format(&mut self, number: impl Number) -> &str {
        let mut left = number.number();
        let mut at = self.0.len();
        loop {
            at -= 1;
            self.0[at] = b'0' + (left % 10) as u8;
            left /= 10;
            if left == 0 {
                break;
            }
        }
        std::str::from_utf8(&self.0[at..]).unwrap_or("")
    }
}
