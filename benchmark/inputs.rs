//! What both sides are given: music under sheets of some channels and one end, sixteen frames of each kind.
use crate::spectra;
use rust_reference::model::{self as m, Record, Sheet};
use rust_reference::rng::Rng;

/// How many inputs a step goes round.
pub const MANY: usize = 16;

/// A frame as both sides take it: the sheet's bytes, the coefficients, and what they come to.
pub struct Input {
    pub sheet: Sheet,
    pub bytes: Vec<u8>,
    pub coeffs: Vec<f32>,
    pub frame: m::Frame,
}

/// A sheet of `full` channels with one end and `lfe` LFE, new sets in blocks 0 and 3 as the Rust's encoder places them.
fn sheet(g: &mut Rng, full: u8, lfe: u8, end: u8) -> Sheet {
    let mut s = Sheet {
        version: 1,
        n: full,
        lfe,
        sdcycod: 2,
        fdcycod: 1,
        sgaincod: 1,
        dbpbcod: 2,
        floorcod: 4,
        csnroffst: 21,
        ..Default::default()
    };
    for channel in 0..full + lfe {
        let is_lfe = channel == s.n;
        let mut new = || if is_lfe { 1 } else { g.range(1, 3) as u8 };
        let strat = [new(), 0, 0, new(), 0, 0];
        s.records.push(Record { channel, end: if is_lfe { 7 } else { end }, strat, fsnroffst: 6, fgaincod: 4, segs: vec![] });
    }
    s
}

/// Frames of `channels` channels, of which the sixth is the LFE.
pub fn frames(channels: u8, end: u8) -> Vec<Input> {
    let lfe = (channels == 6) as u8;
    frames_of(channels - lfe, lfe, end)
}

pub fn frames_of(full: u8, lfe: u8, end: u8) -> Vec<Input> {
    let mut g = Rng::new(1000 * (full + lfe) as u64 + end as u64);
    let mut made = || {
        let sheet = sheet(&mut g, full, lfe, end);
        let coeffs: Vec<f32> = spectra::coefficients(&mut g, &sheet, "music");
        let frame = m::frame_of(&sheet, &coeffs);
        Input { bytes: sheet.to_bytes(), coeffs, frame, sheet }
    };
    (0..MANY).map(|_| made()).collect()
}

/// The size of a frame in words; of six channels the sixth is the LFE.
pub fn size_of(channels: u8, end: u8) -> String {
    format!("{channels} channel{}, end {end}", if channels == 1 { "" } else { "s" })
}

/// The extracted exponents of a channel's first block.
pub fn extracted(input: &Input, channel: usize) -> Vec<u8> {
    let at = input.sheet.at(0, channel);
    input.coeffs[at..at + input.sheet.end(channel)].iter().map(|&x| m::exponent_of(x)).collect()
}

/// A slice as the source's fixed array, with what follows it 0.
pub fn row(part: &[u8]) -> [u8; 256] {
    let mut a = [0; 256];
    a[..part.len()].copy_from_slice(part);
    a
}
