//! Two stand-ins for the bit writer that the source takes from elsewhere, of one interface: `write_u32(v, n)` appends the low n bits of v,
//! highest first.

/// One bool a bit: the stand-in of the differential runs. Clear, not fast.
#[derive(Default)]
pub struct Bools {
    bits: Vec<bool>,
}

impl Bools {
    pub fn clear(&mut self) {
        self.bits.clear();
    }
    pub fn write_u32(&mut self, v: u32, n: u32) {
        for k in (0..n).rev() {
            self.bits.push(v >> k & 1 == 1);
        }
    }
    pub fn bits(&self) -> usize {
        self.bits.len()
    }
    /// The bits at the front of `out`, with zero bits to the byte.
    pub fn store(&mut self, out: &mut [u8]) {
        for (byte, bits) in out.iter_mut().zip(self.bits.chunks(8)) {
            *byte = bits.iter().enumerate().fold(0, |v, (i, &b)| v | (b as u8) << (7 - i));
        }
    }
}

/// Bytes, with up to 32 bits waiting in a word: as a writer that is made for speed would do it.
#[derive(Default)]
pub struct Packed {
    bytes: Vec<u8>,
    waiting: u64,
    count: u32,
}

impl Packed {
    pub fn clear(&mut self) {
        self.bytes.clear();
        (self.waiting, self.count) = (0, 0);
    }
    #[inline]
    pub fn write_u32(&mut self, v: u32, n: u32) {
        self.waiting = self.waiting << n | (v as u64 & ((1 << n) - 1));
        self.count += n;
        if self.count >= 32 {
            self.count -= 32;
            self.bytes.extend_from_slice(&((self.waiting >> self.count) as u32).to_be_bytes());
        }
    }
    pub fn bits(&self) -> usize {
        8 * self.bytes.len() + self.count as usize
    }
    pub fn store(&mut self, out: &mut [u8]) {
        let whole = self.bytes.len();
        out[..whole].copy_from_slice(&self.bytes);
        let rest = ((self.waiting << (32 - self.count)) as u32).to_be_bytes();
        let left = self.count.div_ceil(8) as usize;
        out[whole..whole + left].copy_from_slice(&rest[..left]);
    }
}

/// Counts the bits and keeps none: what is left is the work before the writing.
#[derive(Default)]
pub struct Nothing {
    bits: usize,
}

impl Nothing {
    pub fn clear(&mut self) {
        self.bits = 0;
    }
    #[inline]
    pub fn write_u32(&mut self, _: u32, n: u32) {
        self.bits += n as usize;
    }
    pub fn bits(&self) -> usize {
        self.bits
    }
    pub fn store(&mut self, _: &mut [u8]) {}
}
