//! The reconstruction of a frame: every bap with every code; one exponent or code changed at every place, below the ends and from them on; and
//! buffers of every length round the right one, under sheets with each fault.
use super::sequences;
use crate::cases::sheet_for;
use crate::frames::{self, reconstructed_here, reconstructed_there};
use crate::tally::Tally;
use rust_reference::gen::{self, Wish};
use rust_reference::model::{self as m, Sheet};
use rust_reference::reference as r;
use rust_reference::rng::Rng;

pub fn run(tally: &mut Tally) {
    every_code(tally);
    one_changed(tally);
    lengths(tally);
}

fn compare(tally: &mut Tally, step: &str, label: &str, sheet: &[u8], exps: &[u8], codes: &[u16], lengths: [usize; 2]) {
    let here = reconstructed_here(sheet, exps, codes, lengths);
    frames::note(tally, step, label, sheet, &here, &reconstructed_there(sheet, exps, codes, lengths));
}

/// Flat spectra of every exponent under every csnroffst; the bins of a bap have its codes in turn, from 0 again after the last.
fn every_code(tally: &mut Tally) {
    let mut next = [0u32; 16];
    for (csnroffst, value) in (0..64).flat_map(|c| (0..=24).map(move |v| (c, v))) {
        let (sheet, _) = sheet_for(&[0, 0, 0, 0, 0, 0, csnroffst, 0, 0], &[], 253).expect("a sheet says it");
        let s = m::check_sheet(&sheet).expect("a good sheet");
        let mut row = vec![value; 253];
        r::r_preprocess_d15(&mut row);
        row.resize(m::NC, 0);
        let exps = row.repeat(m::BLOCKS);
        let codes: Vec<u16> = m::baps_of(&s, &exps).iter().map(|&b| following(&mut next[b as usize], b)).collect();
        let label = format!("csnroffst {csnroffst}, exponents {value}");
        compare(tally, "short: reconstruct_body, every code", &label, &sheet, &exps, &codes, [exps.len(); 2]);
    }
    assert!((0..16).all(|b| next[b] >= m::code_count(b as u8)), "too few bins for every code");
}

/// The next code of a bap.
fn following(next: &mut u32, bap: u8) -> u16 {
    *next += 1;
    ((*next - 1) % m::code_count(bap)) as u16
}

fn small_sheet(seed: u64) -> Sheet {
    gen::rand_sheet(&mut Rng::new(seed), &Wish { n: Some(1), lfe: Some(1), max_end: 37 })
}

/// A frame of a channel and the LFE: at each place an exponent of 25 and one that is one off; the bap's last code, the one past it, and 65,535.
fn one_changed(tally: &mut Tally) {
    let s = small_sheet(0x1e7e);
    let sheet = s.to_bytes();
    let (exps, wide) = gen::free_frame(&mut Rng::new(3), &s);
    let codes: Vec<u16> = wide.iter().map(|&c| c as u16).collect();
    let baps = m::baps_of(&s, &exps);
    for at in 0..exps.len() {
        let label = format!("entry {at}");
        for exponent in [25, exps[at] ^ 1] {
            let mut e = exps.clone();
            e[at] = exponent;
            compare(tally, "short: reconstruct_body, one exponent", &label, &sheet, &e, &codes, [exps.len(); 2]);
        }
        let past = m::code_count(baps[at]);
        for code in [past - 1, past, 65_535].into_iter().filter_map(|c| u16::try_from(c).ok()) {
            let mut c = codes.clone();
            c[at] = code;
            compare(tally, "short: reconstruct_body, one code", &label, &sheet, &exps, &c, [exps.len(); 2]);
        }
    }
}

/// A good sheet, one cut short, one with a value out of range, one with its records out of order; exponents and codes legal and not.
fn lengths(tally: &mut Tally) {
    let good = small_sheet(5);
    let turned = Sheet { records: good.records.iter().rev().cloned().collect(), ..good.clone() };
    let (n, good) = (good.buffer_len(), good.to_bytes());
    let (cut, mut out_of_range) = (good[..22].to_vec(), good.clone());
    out_of_range[3] = 3;
    for sheet in [good, cut, out_of_range, turned.to_bytes()] {
        sequences(&[0, n - 1, n, n + 1], 4, &mut |l| {
            for (exponent, code) in [(9, 0), (25, 0), (9, 65_535)] {
                let (exps, codes) = (vec![exponent; l[0]], vec![code; l[1]]);
                compare(tally, "short: reconstruct_body, lengths", &format!("{l:?}"), &sheet, &exps, &codes, [l[2], l[3]]);
            }
        });
    }
}
