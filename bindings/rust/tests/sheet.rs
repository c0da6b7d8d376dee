//! The sheet check, the builder, and what a checked sheet tells of itself.
mod support;

use ac3core::{ChannelRecord, Common, Refusal, Segment, Sheet, SheetBuilder, Strategy};
use support::{example, in_order, orders, Random, EXAMPLE};

#[test]
fn the_example_is_accepted() {
    let sheet = example();
    assert_eq!(sheet.as_bytes(), EXAMPLE);
    assert_eq!((sheet.channels(), sheet.lfe(), sheet.ends(), sheet.entries()), (1, None, vec![37], 1536));
    assert_eq!(sheet.common(), Common::default());
    assert_eq!(sheet.records(), [ChannelRecord::new(37)]);
}

#[test]
fn every_cut_is_a_fault_of_structure() {
    for n in 0..EXAMPLE.len() {
        assert_eq!(Sheet::check(&EXAMPLE[..n]), Err(Refusal::Structure), "cut at {n}");
    }
}

#[test]
fn ends_at_the_edges() {
    for (end, accepted) in [(36, false), (37, true), (38, false), (253, true), (254, false)] {
        let mut bytes = EXAMPLE;
        bytes[13] = end;
        assert_eq!(Sheet::check(&bytes).err(), (!accepted).then_some(Refusal::OutOfRange), "end {end}");
    }
}

#[test]
fn the_builder_lays_out_the_example() {
    let sheet = SheetBuilder::new(Common::default()).channel(ChannelRecord::new(37)).check().unwrap();
    assert_eq!(sheet, example());
}

#[test]
fn values_are_told_from_the_bytes() {
    let head = [0, 0x23, 1, 2, 1, 1, 3, 2, 1, 0, 5, 60];
    let full = [0, 40, 3, 0, 2, 0, 0, 1, 15, 7, 1, 7, 2, 6];
    let lfe = [1, 7, 1, 0, 1, 0, 0, 1, 9, 4, 0];
    let bytes = [&head[..], &full, &lfe].concat();
    let sheet = Sheet::check(&bytes).unwrap();
    let common = Common { fscod: 2, sdcycod: 3, fdcycod: 2, sgaincod: 1, dbpbcod: 0, floorcod: 5, csnroffst: 60 };
    use Strategy::{Reuse, D15, D25, D45};
    let records = [
        ChannelRecord {
            strategies: [D45, Reuse, D25, Reuse, Reuse, D15],
            fsnroffst: 15,
            fgaincod: 7,
            segments: vec![Segment { offst: 7, len: 2, ba: 6 }],
            ..ChannelRecord::new(40)
        },
        ChannelRecord {
            strategies: [D15, Reuse, D15, Reuse, Reuse, D15],
            fsnroffst: 9,
            fgaincod: 4,
            ..ChannelRecord::new(7)
        },
    ];
    assert_eq!((sheet.common(), sheet.records(), sheet.lfe()), (common, &records[..], Some(1)));
    let [full_record, lfe_record] = records;
    let built = SheetBuilder::new(common).channel(full_record).lfe(lfe_record).check().unwrap();
    assert_eq!(built.as_bytes(), bytes);
}

/// Every order of the records of sheets of two to six channels, with and without an LFE.
#[test]
fn only_the_ascending_order_is_accepted() {
    let mut random = Random(5);
    for (full_bandwidth, lfe) in (1..=5).flat_map(|n| [(n, false), (n, true)]).skip(1) {
        let sheet = random.sheet_of(full_bandwidth, lfe);
        let orders = orders(sheet.channels());
        assert_eq!(orders.len(), (1..=sheet.channels()).product());
        for order in orders {
            let answer = Sheet::check(&in_order(&sheet, &order));
            let want = if order.is_sorted() { Ok(sheet.clone()) } else { Err(Refusal::OutOfOrder) };
            assert_eq!(answer, want, "{order:?}");
        }
    }
}

/// The settings of a sheet, laid out anew; the LFE is set before channel number `lfe_before`.
fn laid_out_again(sheet: &Sheet, lfe_before: usize) -> Sheet {
    let full_bandwidth = sheet.lfe().unwrap_or(sheet.channels());
    let lfe = sheet.lfe().map(|channel| sheet.records()[channel].clone());
    let mut builder = SheetBuilder::new(sheet.common());
    for channel in 0..=full_bandwidth {
        if let (Some(record), true) = (&lfe, channel == lfe_before) {
            builder = builder.lfe(record.clone());
        }
        if channel < full_bandwidth {
            builder = builder.channel(sheet.records()[channel].clone());
        }
    }
    builder.check().expect("the builder lays out in order")
}

/// What a builder was given is what the sheet tells, also after its bytes are checked anew. Where the LFE comes among
/// its calls makes no difference.
#[test]
fn random_sheets_are_told_as_built() {
    let mut random = Random(1);
    for _ in 0..500 {
        let sheet = random.sheet();
        assert_eq!(Sheet::check(sheet.as_bytes()).as_ref(), Ok(&sheet));
        for lfe_before in 0..=sheet.lfe().unwrap_or(0) {
            assert_eq!(laid_out_again(&sheet, lfe_before), sheet);
        }
    }
}

/// Equal settings are equal bytes, and only those. Of each sheet: itself laid out anew, another, and all that are
/// accepted with one byte changed by one.
#[test]
fn equal_settings_are_equal_bytes() {
    let mut random = Random(6);
    let settings = |sheet: &Sheet| (sheet.common(), sheet.records().to_vec());
    let compare = |one: &Sheet, other: &Sheet| {
        let equal = settings(one) == settings(other);
        assert_eq!(one.as_bytes() == other.as_bytes(), equal);
        assert_eq!(one == other, equal);
        equal
    };
    for _ in 0..200 {
        let sheet = random.sheet();
        assert!(compare(&sheet, &laid_out_again(&sheet, sheet.lfe().unwrap_or(0))));
        compare(&sheet, &random.sheet());
        let mut accepted = 0;
        for (at, step) in (0..sheet.as_bytes().len()).flat_map(|at| [(at, 1), (at, 255)]) {
            let mut bytes = sheet.as_bytes().to_vec();
            bytes[at] = bytes[at].wrapping_add(step);
            if let Ok(near) = Sheet::check(&bytes) {
                assert!(!compare(&sheet, &near), "byte {at}");
                accepted += 1;
            }
        }
        assert!(accepted > 0);
    }
}

/// Each value one beyond its range, and counts that a sheet cannot have.
#[test]
fn the_builder_refuses_what_is_out_of_range() {
    let channel = ChannelRecord::new(37);
    let common = Common::default();
    let refused = |builder: SheetBuilder| assert_eq!(builder.check(), Err(Refusal::OutOfRange));
    for beyond in [
        Common { fscod: 3, ..common },
        Common { sdcycod: 4, ..common },
        Common { fdcycod: 4, ..common },
        Common { sgaincod: 4, ..common },
        Common { dbpbcod: 4, ..common },
        Common { floorcod: 8, ..common },
        Common { csnroffst: 64, ..common },
    ] {
        refused(SheetBuilder::new(beyond).channel(channel.clone()));
    }
    let segment = Segment { offst: 0, len: 0, ba: 0 };
    for beyond in [
        ChannelRecord { strategies: [Strategy::Reuse; 6], ..channel.clone() },
        ChannelRecord { fsnroffst: 16, ..channel.clone() },
        ChannelRecord { fgaincod: 8, ..channel.clone() },
        ChannelRecord { segments: vec![Segment { offst: 32, ..segment }], ..channel.clone() },
        ChannelRecord { segments: vec![Segment { len: 16, ..segment }], ..channel.clone() },
        ChannelRecord { segments: vec![Segment { ba: 8, ..segment }], ..channel.clone() },
        ChannelRecord { segments: vec![segment; 9], ..channel.clone() },
        ChannelRecord { segments: vec![segment; 300], ..channel.clone() },
    ] {
        refused(SheetBuilder::new(common).channel(beyond));
    }
    refused(SheetBuilder::new(common));
    refused(SheetBuilder::new(common).lfe(ChannelRecord::new(7)));
    refused((0..6).fold(SheetBuilder::new(common), |builder, _| builder.channel(channel.clone())));
    refused((0..300).fold(SheetBuilder::new(common), |builder, _| builder.channel(channel.clone())));
    refused(SheetBuilder::new(common).channel(channel.clone()).lfe(channel));
}

/// Nine segments, which the builder refuses itself, are refused by the sheet check in the same way.
#[test]
fn nine_segments_are_out_of_range_for_the_check_too() {
    let mut bytes = EXAMPLE.to_vec();
    bytes[1] += 3 * 9;
    bytes[22] = 9;
    bytes.extend([0; 3 * 9]);
    assert_eq!(Sheet::check(&bytes), Err(Refusal::OutOfRange));
}

#[test]
#[should_panic(expected = "channel 1 of a sheet of 1")]
fn a_part_of_no_channel() {
    example().part(0, 1);
}

#[test]
#[should_panic(expected = "block 6 of a frame of 6")]
fn a_part_of_no_block() {
    example().bins(6, 0);
}
