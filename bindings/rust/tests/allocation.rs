//! The allocation of one channel of a sheet, against the model of A/52 7.2.2 in scripts/allocation-edges-stdout.
use ac3core::{steps::preprocess_d15, ChannelRecord, Common, Refusal, Sheet, SheetBuilder};

/// 44.1 kHz, two channels and the LFE: the record of channel 0 (end 37), that of channel 1 (end 40, one segment), the
/// LFE's.
const BYTES: [u8; 48] = [
    0x00, 0x2e, 0x01, 0x01, 0x02, 0x01, 0x02, 0x01, 0x01, 0x02, 0x04, 0x1e, //
    0x00, 0x25, 0x03, 0x00, 0x00, 0x00, 0x00, 0x00, 0x00, 0x04, 0x00, //
    0x01, 0x28, 0x01, 0x00, 0x00, 0x00, 0x00, 0x00, 0x0f, 0x07, 0x01, 0x07, 0x02, 0x00, //
    0x02, 0x07, 0x01, 0x00, 0x00, 0x00, 0x00, 0x00, 0x09, 0x04, 0x00,
];

/// What the channels of that sheet get with `exponents`.
const CHANNEL_0: [u8; 37] = [
    14, 14, 8, 0, 14, 0, 14, 7, 0, 0, 0, 0, 14, 6, 0, 8, 0, 14, 7, 0, 9, 0, 0, 14, 7, 14, 7, 0, 14, 7, 14, 7, 0, 0, 12,
    0, 12,
];
const CHANNEL_1: [u8; 40] = [
    15, 14, 8, 0, 15, 0, 15, 12, 4, 0, 2, 0, 15, 9, 0, 9, 0, 15, 11, 1, 12, 2, 0, 15, 9, 15, 9, 0, 15, 10, 15, 10, 2,
    0, 15, 0, 15, 7, 0, 15,
];
const LFE: [u8; 7] = [14, 14, 8, 0, 14, 0, 14];

fn sheet() -> Sheet {
    Sheet::check(&BYTES).unwrap()
}

fn exponents() -> [u8; 256] {
    std::array::from_fn(|i| ((7 * i + 11 * (i / 5)) % 25) as u8)
}

/// A sheet of one channel with these codes, all others 0.
fn one_channel(fscod: u8, csnroffst: u8, fsnroffst: u8, fgaincod: u8, end: u8) -> Sheet {
    SheetBuilder::new(Common { fscod, csnroffst, ..Common::default() })
        .channel(ChannelRecord { fsnroffst, fgaincod, ..ChannelRecord::new(end) })
        .check()
        .unwrap()
}

#[test]
fn each_channel_by_its_own_record() {
    let exp = exponents();
    for (channel, want) in [(0, &CHANNEL_0[..]), (1, &CHANNEL_1[..]), (2, &LFE[..])] {
        let mut bap = [0xa5u8; 40];
        let n = want.len();
        assert_eq!(sheet().compute_bap(channel, &exp[..n], &mut bap[..n]), Ok(()), "channel {channel}");
        assert_eq!(bap[..n], *want, "channel {channel}");
        assert!(bap[n..].iter().all(|&b| b == 0xa5));
    }
}

#[test]
fn from_end_on_exponents_are_ignored_and_baps_become_0() {
    let mut exp = exponents();
    exp[37..].fill(255);
    let mut bap = [0xa5u8; 256];
    assert_eq!(sheet().compute_bap(0, &exp, &mut bap), Ok(()));
    assert_eq!(bap[..37], CHANNEL_0);
    assert_eq!(bap[37..], [0; 219]);
}

#[test]
fn refusals_in_order_leave_the_baps() {
    use Refusal::{BadExponent, OutOfRange, WrongLength};
    let mut loud = exponents();
    loud[6] = 25;
    let refused = |channel, exp: &[u8], n: usize, refusal| {
        let mut bap = vec![0xa5u8; n];
        assert_eq!(sheet().compute_bap(channel, exp, &mut bap), Err(refusal));
        assert!(bap.iter().all(|&b| b == 0xa5));
    };
    refused(3, &loud[..6], 6, OutOfRange);
    refused(usize::MAX, &loud, 256, OutOfRange);
    refused(1 << 32, &loud, 256, OutOfRange);
    refused(2, &loud[..6], 7, WrongLength);
    refused(2, &loud, 6, WrongLength);
    refused(1, &loud, 39, WrongLength);
    refused(2, &[0; 257], 256, WrongLength);
    refused(2, &loud, 257, WrongLength);
    refused(2, &loud, 7, BadExponent);
    loud[6] = 24;
    loud[7] = 25;
    assert_eq!(sheet().compute_bap(2, &loud, &mut [0; 7]), Ok(()));
}

#[test]
fn the_lfe_is_there_only_where_the_sheet_has_it() {
    let mut bap = [0xa5u8; 37];
    assert_eq!(one_channel(0, 0, 0, 0, 37).compute_bap(1, &[0; 37], &mut bap), Err(Refusal::OutOfRange));
    assert_eq!(bap, [0xa5; 37]);
}

/// The inputs of docs/DIFFERENCES.md at 44.1 kHz: A/52's thresholds, not the Rust's.
#[test]
fn hearing_thresholds_are_those_of_the_standard() {
    for (csnroffst, fsnroffst, fgaincod, end, value, bin, want) in
        [(14, 5, 0, 37, 17, 25, 0), (1, 9, 7, 37, 11, 28, 0), (1, 1, 7, 49, 11, 46, 1)]
    {
        let mut exp = vec![value; end];
        assert_eq!(preprocess_d15(&mut exp), Ok(()));
        let mut bap = vec![0xa5; end];
        let sheet = one_channel(1, csnroffst, fsnroffst, fgaincod, end as u8);
        assert_eq!(sheet.compute_bap(0, &exp, &mut bap), Ok(()));
        assert_eq!(bap[bin], want, "bin {bin}");
    }
}

/// No rule for offsets that are all 0: the Rust's answer holds (docs/DIFFERENCES.md).
#[test]
fn offsets_of_zero_are_offsets_like_others() {
    let mut bap = [0xa5u8; 37];
    assert_eq!(one_channel(0, 0, 0, 7, 37).compute_bap(0, &[0; 37], &mut bap), Ok(()));
    assert_eq!(bap[..28], [1; 28]);
    assert_eq!(bap[28..], [0; 9]);
}
