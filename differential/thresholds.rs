//! fscod 1 (44.1 kHz), where three entries of the Rust's HTH are not A/52's: beside the Rust unchanged, every bin that differs lies in band
//! 25, 28 or 34; beside the Rust with A/52's row nothing differs.
use crate::cases::{sheet_for, FILL};
use crate::entries;
use crate::frames::{encoded_here, encoded_there, ROOM};
use crate::spectra;
use crate::tally::Tally;
use rust_reference::gen::{self, Wish};
use rust_reference::model as m;
use rust_reference::reference::{self as r, AllocInput};
use rust_reference::rng::Rng;
use std::sync::atomic::Ordering;

/// The bands in which the Rust's row is not A/52's.
const BANDS: [usize; 3] = [25, 28, 34];

/// Bins that differ from the Rust unchanged, by band.
struct Bins([u64; 50]);

impl Bins {
    /// Counts the bins that differ; whether all of them lie in the three bands.
    fn count(&mut self, here: &[u8], there: &[u8]) -> bool {
        let mut known = true;
        for (bin, (a, b)) in here.iter().zip(there).enumerate() {
            if a != b {
                let band = r::MASKTAB[bin] as usize;
                self.0[band] += 1;
                known &= BANDS.contains(&band);
            }
        }
        known
    }

    fn print(&self, what: &str) {
        let met: Vec<String> = self.0.iter().enumerate().filter(|(_, &n)| n > 0).map(|(b, n)| format!("band {b}: {n}")).collect();
        println!("fscod 1, {what}: bins that differ from the Rust unchanged: {}", met.join(", "));
    }
}

/// One allocation beside both rows.
fn allocation(tally: &mut Tally, bins: &mut Bins, p: &AllocInput, segs: &[[u8; 3]], exps: &[u8]) {
    let end = exps.len();
    let params = [p.fscod, p.sdcycod, p.fdcycod, p.sgaincod, p.dbpbcod, p.floorcod, p.csnroffst, p.fsnroffst, p.fgaincod];
    let (sheet, channel) = sheet_for(&params, &segs.concat(), end).expect("a sheet says it");
    let mut bap = vec![FILL; end];
    let answer = entries::compute_bap(&sheet, channel, exps, &mut bap);
    let (unchanged, standard) = r::r_both_rows(exps, end, p, segs);
    let show = |row: &str| format!("{row}: answer {answer}, {p:?}, segments {segs:?}, exponents {exps:?}");
    let same = answer == 0 && bap == standard[..end];
    tally.step("fscod 1: allocation, A/52's row").case(0, same, || show("A/52's row"));
    let known = bins.count(&bap, &unchanged[..end]);
    tally.step("fscod 1: allocation, the Rust unchanged").case(0, known, || show("another band"));
}

/// Inputs as small as there are for each of the three bands (docs/DIFFERENCES.md).
fn smallest(tally: &mut Tally, bins: &mut Bins) {
    for (csnroffst, fsnroffst, fgaincod, end, value) in [(14, 5, 0, 37, 17u8), (1, 9, 7, 37, 11), (1, 1, 7, 49, 11)] {
        let p = AllocInput { fscod: 1, csnroffst, fsnroffst, fgaincod, ..Default::default() };
        let mut exps = vec![value; end];
        r::r_preprocess_d15(&mut exps);
        allocation(tally, bins, &p, &[], &exps);
    }
}

/// One frame beside both rows: with the Rust's row exponents are the same, bap differs in the three bands alone and a code where its bap does.
fn frame(tally: &mut Tally, bins: &mut Bins, g: &mut Rng) {
    let mut s = gen::rand_sheet(g, &Wish { n: None, lfe: None, max_end: 253 });
    s.fscod = 1;
    s.csnroffst = g.range(1, 30) as u8;
    let sheet = s.to_bytes();
    let (name, x) = spectra::any(g, &s);
    let here = encoded_here(&sheet, &x, x.len(), ROOM);
    let standard = encoded_there(&sheet, &x, x.len(), ROOM);
    tally.step("fscod 1: frame, A/52's row").case(standard.answer, here == standard, || format!("{name}, sheet {sheet:02x?}"));
    r::SOURCE_HTH.store(true, Ordering::Relaxed);
    let unchanged = encoded_there(&sheet, &x, x.len(), ROOM);
    r::SOURCE_HTH.store(false, Ordering::Relaxed);
    let mut known = here.exps == unchanged.exps && (here.bap != unchanged.bap || here == unchanged);
    for (part, (a, b)) in here.bap.chunks(m::NC).zip(unchanged.bap.chunks(m::NC)).enumerate() {
        known &= bins.count(a, b);
        known &= (0..m::NC).all(|i| a[i] != b[i] || here.codes[m::NC * part + i] == unchanged.codes[m::NC * part + i]);
    }
    tally.step("fscod 1: frame, the Rust unchanged").case(unchanged.answer, known, || format!("{name}, sheet {sheet:02x?}"));
}

/// `count` random frames and twenty times as many allocations, with the smallest inputs first.
pub fn run(tally: &mut Tally, count: u64, seed: u64) {
    let mut g = Rng::new(seed ^ 0x44_100);
    let mut bins = Bins([0; 50]);
    smallest(tally, &mut bins);
    let ends = gen::full_ends();
    for _ in 0..20 * count {
        let (end, span) = (g.pick(&ends) as usize, g.pick(&[1usize, 2, 4]));
        let p = AllocInput { fscod: 1, ..gen::rand_alloc(&mut g) };
        let segs = gen::rand_segs(&mut g);
        let exps = gen::shaped_exps(&mut g, end, span);
        allocation(tally, &mut bins, &p, &segs, &exps);
    }
    bins.print("allocations");
    let mut bins = Bins([0; 50]);
    for _ in 0..count {
        frame(tally, &mut bins, &mut g);
    }
    bins.print("frames");
}
