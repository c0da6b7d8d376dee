//! What the tests share: document 01's example, and sheets and coefficients by a small generator.
#![allow(dead_code)] // each test file uses its own part of this

use ac3core::{ChannelRecord, Common, Segment, Sheet, SheetBuilder, Strategy, BLOCKS_PER_FRAME, MAX_FBW};

/// Document 01's example: 48 kHz, one channel of end 37, D15 in block 0, reuse after it.
pub const EXAMPLE: [u8; 23] = [0, 0x15, 1, 0, 1, 0, 0, 0, 0, 0, 0, 0, 0, 0x25, 1, 0, 0, 0, 0, 0, 0, 0, 0];

pub fn example() -> Sheet {
    Sheet::check(&EXAMPLE).unwrap()
}

/// The same with csnroffst 40, so that mantissas have bits.
pub fn loud_example() -> Sheet {
    let mut bytes = EXAMPLE;
    bytes[11] = 40;
    Sheet::check(&bytes).unwrap()
}

/// Bits of what is not finite, of both signs: the infinities, quiet NaNs, signalling NaNs.
#[rustfmt::skip]
pub const NOT_FINITE: [u32; 10] = [
    0x7f80_0000, 0xff80_0000, 0x7fc0_0000, 0xffc0_0000, 0x7fff_ffff, 0xffff_ffff, 0x7f80_0001, 0xff80_0001, 0x7fbf_ffff,
    0xffbf_ffff,
];

/// Puts these bits into a coefficient, and sees that they stand there in memory: a copy might make a signalling NaN quiet.
pub fn put_bits(coeff: &mut f32, bits: u32) {
    *coeff = f32::from_bits(bits);
    assert_eq!(std::hint::black_box(coeff).to_bits(), bits);
}

/// The bytes of each record of an accepted sheet.
pub fn records_of(sheet: &Sheet) -> Vec<&[u8]> {
    let mut rest = &sheet.as_bytes()[12..];
    let mut records = Vec::new();
    while !rest.is_empty() {
        let (record, after) = rest.split_at(11 + 3 * rest[10] as usize);
        records.push(record);
        rest = after;
    }
    records
}

/// The sheet's bytes with its records in this order.
pub fn in_order(sheet: &Sheet, order: &[usize]) -> Vec<u8> {
    let records = records_of(sheet);
    let turned: Vec<&[u8]> = order.iter().map(|&channel| records[channel]).collect();
    [&sheet.as_bytes()[..12], &turned.concat()].concat()
}

/// Every order of the numbers below n, the ascending one first.
pub fn orders(n: usize) -> Vec<Vec<usize>> {
    if n == 0 {
        return vec![Vec::new()];
    }
    let put = |order: &[usize], at: usize| [&order[..at], &[n - 1], &order[at..]].concat();
    orders(n - 1).iter().flat_map(|order| (0..n).rev().map(|at| put(order, at))).collect()
}

/// Numbers by splitmix64.
pub struct Random(pub u64);

impl Random {
    pub fn next(&mut self) -> u64 {
        self.0 = self.0.wrapping_add(0x9e37_79b9_7f4a_7c15);
        let z = (self.0 ^ (self.0 >> 30)).wrapping_mul(0xbf58_476d_1ce4_e5b9);
        let z = (z ^ (z >> 27)).wrapping_mul(0x94d0_49bb_1331_11eb);
        z ^ (z >> 31)
    }

    /// A number below n.
    pub fn below(&mut self, n: u64) -> u64 {
        self.next() % n
    }

    pub fn byte(&mut self, greatest: u8) -> u8 {
        self.below(u64::from(greatest) + 1) as u8
    }

    fn strategies(&mut self, last: u8) -> [Strategy; BLOCKS_PER_FRAME] {
        let mut number = |block| if block == 0 { 1 + self.byte(last - 1) } else { self.byte(last) };
        std::array::from_fn(|block| Strategy::from_number(number(block)).unwrap())
    }

    fn record(&mut self) -> ChannelRecord {
        let count = if self.below(2) == 0 { 0 } else { self.byte(8) };
        let segments =
            (0..count).map(|_| Segment { offst: self.byte(31), len: self.byte(15), ba: self.byte(7) }).collect();
        ChannelRecord {
            end: 37 + 3 * self.byte(72),
            strategies: self.strategies(3),
            fsnroffst: self.byte(15),
            fgaincod: self.byte(7),
            segments,
        }
    }

    /// A sheet that is accepted, of any layout.
    pub fn sheet(&mut self) -> Sheet {
        let (full_bandwidth, lfe) = (1 + self.below(MAX_FBW as u64) as usize, self.below(2) == 1);
        self.sheet_of(full_bandwidth, lfe)
    }

    /// A sheet that is accepted, of so many channels beside the LFE.
    pub fn sheet_of(&mut self, full_bandwidth: usize, lfe: bool) -> Sheet {
        let common = Common {
            fscod: self.byte(2),
            sdcycod: self.byte(3),
            fdcycod: self.byte(3),
            sgaincod: self.byte(3),
            dbpbcod: self.byte(3),
            floorcod: self.byte(7),
            csnroffst: self.byte(63),
        };
        let mut builder = SheetBuilder::new(common);
        for _ in 0..full_bandwidth {
            builder = builder.channel(self.record());
        }
        if lfe {
            let (fsnroffst, fgaincod) = (self.byte(15), self.byte(7));
            let strategies = self.strategies(1);
            builder = builder.lfe(ChannelRecord { strategies, fsnroffst, fgaincod, ..ChannelRecord::new(7) });
        }
        builder.check().unwrap()
    }

    /// A frame's coefficients: of all sizes below each end, anything from it on.
    pub fn coeffs(&mut self, sheet: &Sheet) -> Vec<f32> {
        let mut coeffs: Vec<f32> = (0..sheet.entries()).map(|_| f32::from_bits(self.next() as u32)).collect();
        for block in 0..BLOCKS_PER_FRAME {
            for channel in 0..sheet.channels() {
                for x in &mut coeffs[sheet.bins(block, channel)] {
                    let signed = self.below(1 << 24) as f32 / (1 << 23) as f32 - 1.0;
                    *x = signed * 2f32.powi(1 - self.below(28) as i32);
                }
            }
        }
        coeffs
    }

    pub fn bytes(&mut self, n: usize) -> Vec<u8> {
        (0..n).map(|_| self.next() as u8).collect()
    }
}
