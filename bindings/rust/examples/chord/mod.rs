//! What the examples encode: two channels and an LFE, a chord over quiet noise, as in the repository's examples/chord.

use ac3core::{ChannelRecord, Common, Refusal, Segment, Sheet, SheetBuilder, Strategy::*, BLOCKS_PER_FRAME};

/// 48 kHz; the second channel has a delta segment of its own.
pub fn sheet() -> Result<Sheet, Refusal> {
    let common = Common { fscod: 0, sdcycod: 2, fdcycod: 1, sgaincod: 1, dbpbcod: 2, floorcod: 7, csnroffst: 18 };
    let left = ChannelRecord {
        strategies: [D15, Reuse, Reuse, D25, Reuse, Reuse],
        fsnroffst: 5,
        fgaincod: 4,
        ..ChannelRecord::new(181)
    };
    let right = ChannelRecord {
        strategies: [D25, Reuse, D45, Reuse, D15, Reuse],
        segments: vec![Segment { offst: 10, len: 4, ba: 5 }],
        ..left.clone()
    };
    let lfe = ChannelRecord { fsnroffst: 8, fgaincod: 4, ..ChannelRecord::new(7) };
    SheetBuilder::new(common).channel(left).channel(right).lfe(lfe).check()
}

/// Whole numbers -32768..32767, by a linear congruence: the same everywhere.
struct Noise(u32);

impl Noise {
    fn next(&mut self) -> f64 {
        self.0 = self.0.wrapping_mul(1664525).wrapping_add(1013904223);
        f64::from(self.0 >> 16) - 32768.0
    }
}

/// Four tones that fall off to both sides, over a quiet floor.
pub fn coeffs(sheet: &Sheet) -> Vec<f32> {
    let mut noise = Noise(2026);
    let mut coeffs = vec![0.0; sheet.entries()];
    for block in 0..BLOCKS_PER_FRAME {
        for (channel, end) in sheet.ends().into_iter().enumerate() {
            let part = &mut coeffs[sheet.part(block, channel)];
            for (i, coeff) in part.iter_mut().enumerate() {
                let mut x = noise.next() / f64::from(1 << 26);
                for tone in [3usize, 11, 24, 60] {
                    let fall = (3 * i.abs_diff(tone) + channel).min(20);
                    x += noise.next() / f64::from(1 << 16) / f64::from(1 << fall);
                }
                *coeff = if i < end { x as f32 } else { 0.0 };
            }
        }
    }
    coeffs
}
