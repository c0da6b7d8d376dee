//! The order of causes on every entry that takes a sheet, with sheets that no [`Sheet`](crate::Sheet) holds: 1 before 2
//! before 11 before 10, and what a refusal leaves.

use crate::ffi;
use crate::refusal::{answer, Refusal};

/// What is wrong with a call.
#[derive(Clone, Copy, Debug)]
struct Faults {
    structure: bool,
    range: bool,
    order: bool,
    length: bool,
}

impl Faults {
    /// None, each alone, each pair, each three and all.
    fn every() -> impl Iterator<Item = Faults> {
        (0..16).map(|set| {
            let has = |fault| set & (1 << fault) != 0;
            Faults { structure: has(0), range: has(1), order: has(2), length: has(3) }
        })
    }

    /// The cause that is given, where there is one.
    fn first(self) -> Option<Refusal> {
        let table = [
            (self.structure, Refusal::Structure),
            (self.range, Refusal::OutOfRange),
            (self.order, Refusal::OutOfOrder),
            (self.length, Refusal::WrongLength),
        ];
        table.into_iter().find(|&(there, _)| there).map(|(_, refusal)| refusal)
    }
}

/// Two channels and the LFE.
const CHANNELS: usize = 3;
const ENTRIES: usize = 6 * CHANNELS * 256;
const HEAD: [u8; 12] = [0, 46, 1, 0, 2, 1, 2, 1, 1, 2, 7, 18];
const RECORDS: [&[u8]; CHANNELS] = [
    &[0, 37, 1, 0, 0, 0, 0, 0, 5, 4, 0],
    &[1, 40, 2, 0, 0, 3, 0, 0, 5, 4, 1, 10, 4, 5],
    &[2, 7, 1, 0, 0, 0, 0, 0, 8, 4, 0],
];
const ASCENDING: [usize; CHANNELS] = [0, 1, 2];
const OTHER_ORDERS: [[usize; CHANNELS]; 5] = [[0, 2, 1], [1, 0, 2], [1, 2, 0], [2, 0, 1], [2, 1, 0]];

/// The sheets with these faults: the records in each other order; a value out of range before the records, or in the one
/// that stands last; another version, or the last byte cut off.
fn sheets(faults: Faults) -> Vec<Vec<u8>> {
    let orders = if faults.order { &OTHER_ORDERS[..] } else { &[ASCENDING] };
    let mut sheets = Vec::new();
    for order in orders {
        for place in if faults.range { 1..3 } else { 0..1 } {
            let (mut head, mut records) = (HEAD, order.map(|channel| RECORDS[channel].to_vec()));
            match place {
                1 => head[3] = 3,       // fscod
                2 => records[2][2] = 0, // its first strategy
                _ => {}
            }
            let mut sheet = [&head[..], &records.concat()].concat();
            if faults.structure {
                sheets.push(sheet[..sheet.len() - 1].to_vec());
                sheet[2] = 0;
            }
            sheets.push(sheet);
        }
    }
    sheets
}

/// What stands in every output before a call.
const MARK: u8 = 0x5a;
const ROOM: usize = 3480 * CHANNELS;

/// Whether a call that was refused left its outputs and made its counts 0.
fn left(bytes: &[&[u8]], codes: &[u16], counts: &[u32]) -> bool {
    let marked = bytes.concat().iter().all(|&byte| byte == MARK) && codes.iter().all(|&code| code == MARK.into());
    marked && counts.iter().all(|&count| count == 0)
}

/// An entry over a sheet with one of its slices an entry short, counted from 1; with 0 none is.
type Call = fn(&[u8], usize) -> u32;

/// The length of slice number `slice`.
fn length(whole: usize, slice: usize, short: usize) -> usize {
    whole - (slice == short) as usize
}

fn check_sheet(sheet: &[u8], _: usize) -> u32 {
    ffi::check_sheet(sheet)
}

/// The allocation of a channel, in slices of channel 1's end.
fn allocation_of(sheet: &[u8], channel: u32, short: usize) -> u32 {
    let mut bap = vec![MARK; length(40, 2, short)];
    let number = ffi::compute_bap(sheet, channel, &vec![8; length(40, 1, short)], &mut bap);
    assert!(number == 0 || left(&[&bap], &[], &[]), "bap after {number}");
    number
}

fn compute_bap(sheet: &[u8], short: usize) -> u32 {
    allocation_of(sheet, 1, short)
}

fn mantissa_bits_total_ends(sheet: &[u8], short: usize) -> u32 {
    let mut counts = [7; 6];
    let number = ffi::mantissa_bits_total_ends(sheet, &vec![6; length(ENTRIES, 1, short)], &mut counts);
    assert!(number == 0 || left(&[], &[], &counts), "counts after {number}");
    number
}

fn encode_body(sheet: &[u8], short: usize) -> u32 {
    let coeffs = vec![0.0; length(ENTRIES, 1, short)];
    let (mut exps, mut bap) = (vec![MARK; length(ENTRIES, 2, short)], vec![MARK; length(ENTRIES, 3, short)]);
    let (mut codes, mut body) = (vec![MARK.into(); length(ENTRIES, 4, short)], vec![MARK; ROOM]);
    let mut counts = [7; 12];
    let number = ffi::encode_body(sheet, &coeffs, &mut exps, &mut bap, &mut codes, &mut body, &mut counts);
    assert!(number == 0 || left(&[&exps, &bap, &body], &codes, &counts), "buffers after {number}");
    number
}

fn write_body(sheet: &[u8], short: usize) -> u32 {
    let (exps, codes) = (vec![15; length(ENTRIES, 1, short)], vec![0; length(ENTRIES, 2, short)]);
    let (mut body, mut counts) = (vec![MARK; ROOM], [7; 12]);
    let number = ffi::write_body(sheet, &exps, &codes, &mut body, &mut counts);
    assert!(number == 0 || left(&[&body], &[], &counts), "body after {number}");
    number
}

/// A body under the sheet without faults.
fn body() -> Vec<u8> {
    let sheet = [&HEAD[..], &RECORDS.concat()].concat();
    let mut body = vec![0; ROOM];
    assert_eq!(ffi::write_body(&sheet, &[15; ENTRIES], &[0; ENTRIES], &mut body, &mut [0; 12]), 0);
    body
}

fn read_body(sheet: &[u8], short: usize) -> u32 {
    let (mut exps, mut bap) = (vec![MARK; length(ENTRIES, 1, short)], vec![MARK; length(ENTRIES, 2, short)]);
    let mut codes = vec![MARK.into(); length(ENTRIES, 3, short)];
    let (mut counts, mut bits) = ([7; 12], [7]);
    let number = ffi::read_body(sheet, &body(), &mut exps, &mut bap, &mut codes, &mut counts, &mut bits);
    assert!(number == 0 || left(&[&exps, &bap], &codes, &[&counts[..], &bits].concat()), "buffers after {number}");
    number
}

fn reconstruct_body(sheet: &[u8], short: usize) -> u32 {
    let (exps, codes) = (vec![15; length(ENTRIES, 1, short)], vec![0; length(ENTRIES, 2, short)]);
    let mut has_level = vec![MARK; length(ENTRIES, 3, short)];
    let mut levels = vec![f32::from(MARK); length(ENTRIES, 4, short)];
    let number = ffi::reconstruct_body(sheet, &exps, &codes, &mut has_level, &mut levels);
    let marked = levels.iter().all(|&level| level == f32::from(MARK));
    assert!(number == 0 || marked && left(&[&has_level], &[], &[]), "buffers after {number}");
    number
}

/// Every entry that takes a sheet, with the number of its slices.
const CALLS: [(&str, Call, usize); 7] = [
    ("check_sheet", check_sheet, 0),
    ("compute_bap", compute_bap, 2),
    ("mantissa_bits_total_ends", mantissa_bits_total_ends, 1),
    ("encode_body", encode_body, 4),
    ("write_body", write_body, 2),
    ("read_body", read_body, 3),
    ("reconstruct_body", reconstruct_body, 4),
];

#[test]
fn structure_range_order_length() {
    for (faults, sheet) in Faults::every().flat_map(|faults| sheets(faults).into_iter().map(move |s| (faults, s))) {
        for (entry, call, slices) in CALLS {
            for short in if faults.length { 1..slices + 1 } else { 0..1 } {
                assert_eq!(answer(call(&sheet, short)).err(), faults.first(), "{entry}, {faults:?}, {sheet:?}");
            }
        }
    }
}

/// It is out of range like a value of the sheet, so before the order of the records and the slices.
#[test]
fn a_channel_that_the_sheet_has_not() {
    for faults in Faults::every() {
        let first = Faults { range: true, ..faults }.first();
        for (sheet, channel) in sheets(faults).iter().flat_map(|sheet| [(sheet, 3), (sheet, u32::MAX)]) {
            for short in if faults.length { 1..3 } else { 0..1 } {
                let number = allocation_of(sheet, channel, short);
                assert_eq!(answer(number).err(), first, "channel {channel}, {faults:?}, {sheet:?}");
            }
        }
    }
}

/// No entry that takes a sheet is left out.
#[test]
fn every_entry_that_takes_a_sheet() {
    let functions = include_str!("ffi.rs").split("\npub fn ").skip(1).filter_map(|function| function.split_once('('));
    let with_sheet = functions.filter(|(_, rest)| rest.trim_start().starts_with("sheet: ")).map(|(entry, _)| entry);
    assert!(with_sheet.eq(CALLS.iter().map(|&(entry, ..)| entry)), "the entries of src/ffi.rs and those tried here");
}
