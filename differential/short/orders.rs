//! Every order of the records of sheets of two to six channels, with and without an LFE, on every call that takes a sheet: 11 for all but the
//! ascending one, before 10 and after a 2 of the call's own.
use crate::frames::{self, ROOM};
use crate::tally::Tally;
use rust_reference::gen::{self, Wish};
use rust_reference::model::{Record, Sheet};
use rust_reference::rng::Rng;

pub fn run(tally: &mut Tally) {
    let mut g = Rng::new(0x0bde);
    for (n, lfe) in (1..=5).flat_map(|n| [(n, 0), (n, 1)]).skip(1) {
        let s = gen::rand_sheet(&mut g, &Wish { n: Some(n), lfe: Some(lfe), max_end: 253 });
        let x = gen::coeffs(&mut g, &s, "noise", false);
        let ordered = frames::encoded_there(&s.to_bytes(), &x, x.len(), ROOM);
        for records in orders(&s.records) {
            let turned = Sheet { records, ..s.clone() };
            for short in [false, true] {
                frames::compare_order(tally, "short, every order", &format!("{n} + {lfe} channels"), &turned, &ordered, &x, short);
            }
        }
    }
}

/// Every order of these records, the one in which they stand first.
fn orders(records: &[Record]) -> Vec<Vec<Record>> {
    let Some((last, before)) = records.split_last() else { return vec![vec![]] };
    let put = |order: &[Record], at: usize| [&order[..at], std::slice::from_ref(last), &order[at..]].concat();
    orders(before).iter().flat_map(|order| (0..records.len()).rev().map(|at| put(order, at))).collect()
}
