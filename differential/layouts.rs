//! Whole frames over every channel count and rate: each named spectrum under each strategy and pattern, each of the oracle's kinds.
use crate::frames;
use crate::spectra::{self, NAMES};
use crate::tally::Tally;
use rust_reference::gen::{self, Wish, KINDS};
use rust_reference::model::Sheet;
use rust_reference::rng::Rng;

/// The patterns of new blocks: the first alone, the first and the fourth, all.
const PATTERNS: [[bool; 6]; 3] = [[true, false, false, false, false, false], [true, false, false, true, false, false], [true; 6]];

/// A random sheet of these channels and this rate; where a strategy is given it stands in every new block of a full channel.
fn sheet_with(g: &mut Rng, n: u8, lfe: u8, fscod: u8, given: Option<(u8, [bool; 6])>) -> Sheet {
    let mut s = gen::rand_sheet(g, &Wish { n: Some(n), lfe: Some(lfe), max_end: 253 });
    s.fscod = fscod;
    if let Some((strategy, new)) = given {
        for q in s.records.iter_mut() {
            let own = if q.channel == n { 1 } else { strategy };
            q.strat = new.map(|b| if b { own } else { 0 });
        }
    }
    s
}

/// Every channel count and rate with each named spectrum under each strategy and pattern, and each of the oracle's kinds under any.
pub fn run(tally: &mut Tally, seed: u64) {
    let mut g = Rng::new(seed ^ 0x5bec);
    let given: Vec<_> = (1..=3u8).flat_map(|k| PATTERNS.map(|p| Some((k, p)))).chain([None]).collect();
    for n in 1..=5u8 {
        for (lfe, fscod) in [(0, 0), (0, 1), (0, 2), (1, 0), (1, 1), (1, 2)] {
            let mut frame = |g: &mut Rng, name: &str, strategies| {
                let s = sheet_with(g, n, lfe, fscod, strategies);
                let x = spectra::coefficients(g, &s, name);
                frames::compare(tally, g, &format!("{name}, {n} + {lfe} channels, fscod {fscod}"), &s.to_bytes(), &x, 3);
            };
            NAMES.iter().for_each(|name| given.iter().for_each(|&k| frame(&mut g, name, k)));
            KINDS.iter().for_each(|name| frame(&mut g, name, None));
        }
    }
    println!("spectra: {} frames of each of {} channel layouts and rates", NAMES.len() * given.len() + KINDS.len(), 5 * 6);
}
