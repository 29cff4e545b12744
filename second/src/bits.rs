//! Bit-packed fields, most significant bit first, read and written one bit at a time.
//!
//! Slow and plain on purpose: no masks, so that a slip in a mask elsewhere is not repeated here.

/// Reads fields one after the other. Bits past the end read 0; whoever reads looks at the length first.
pub struct Reader<'a> {
    octets: &'a [u8],
    at: usize,
}

impl<'a> Reader<'a> {
    pub fn new(octets: &'a [u8]) -> Self {
        Reader { octets, at: 0 }
    }

    fn bit(&mut self) -> u32 {
        let octet = self.octets.get(self.at / 8).copied().unwrap_or(0);
        let halvings = 7 - self.at % 8;
        self.at += 1;
        u32::from(octet >> halvings) % 2
    }

    /// The next `width` bits, at most 32, as a number.
    pub fn field(&mut self, width: usize) -> u32 {
        (0..width).fold(0, |number, _| number * 2 + self.bit())
    }

    /// The next `width` bits, at most 16.
    pub fn word(&mut self, width: usize) -> u16 {
        self.field(width) as u16
    }

    /// The next `width` bits, at most 8.
    pub fn octet(&mut self, width: usize) -> u8 {
        self.field(width) as u8
    }

    /// The next bit as a flag.
    pub fn flag(&mut self) -> bool {
        self.bit() == 1
    }
}

/// Writes fields one after the other.
#[derive(Default)]
pub struct Writer {
    bits: Vec<bool>,
}

impl Writer {
    /// Appends the last `width` bits of the number.
    pub fn field(&mut self, width: u32, number: impl Into<u32>) {
        let number = number.into();
        for doublings in (0..width).rev() {
            self.bits.push((number >> doublings) % 2 == 1);
        }
    }

    /// The octets written. A last octet that is not full gets zero bits.
    pub fn finish(self) -> Vec<u8> {
        self.bits
            .chunks(8)
            .map(|bits| {
                bits.iter().fold(0, |octet, &bit| octet * 2 + u8::from(bit)) << (8 - bits.len())
            })
            .collect()
    }
}
