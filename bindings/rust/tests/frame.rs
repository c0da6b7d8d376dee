//! Whole frames: document 01's example, and frames at random that are read back and written again.
mod support;

use ac3core::{steps::*, ChannelRecord, Common, Counts, Frame, Refusal, Sheet, SheetBuilder, Strategy};
use ac3core::{BLOCKS_PER_FRAME, MAX_FBW};
use support::{example, loud_example, put_bits, Random, NOT_FINITE};

#[test]
fn the_example_of_document_01() {
    let sheet = example();
    let mut body = [7; 20];
    let mut frame = Frame::new(&sheet);
    let coeffs = vec![0.0; sheet.entries()];
    let counts = sheet.encode_body(&coeffs, &mut frame.exponents, &mut frame.bap, &mut frame.codes, &mut body).unwrap();
    assert_eq!(counts, Counts { exponents: [88, 0, 0, 0, 0, 0], mantissas: [0; 6] });
    let printed = "block 0 88 0\nblock 1 0 0\nblock 2 0 0\nblock 3 0 0\nblock 4 0 0\nblock 5 0 0\ntotal 88";
    assert_eq!(counts.to_string(), printed);
    assert_eq!(counts.bytes(), 11);
    assert_eq!(frame.exponents[..7], [15, 17, 19, 21, 23, 24, 24]);
    assert_eq!(frame.exponents[37..256], [0; 219]);
    assert_eq!(body[11..], [7; 9], "bytes after the body stay");
}

#[test]
fn coefficients_from_end_on_are_ignored() {
    let sheet = loud_example();
    let tone = |i: usize| 0.7 / (1 + i % 7) as f32;
    let clean: Vec<f32> = (0..sheet.entries()).map(|i| if i % 256 < 37 { tone(i) } else { 0.0 }).collect();
    let encoded = sheet.encode(&clean).unwrap();
    assert!(encoded.counts.mantissas.iter().all(|&bits| bits > 0));
    let mut coeffs = clean;
    for i in (0..coeffs.len()).filter(|i| i % 256 >= 37) {
        put_bits(&mut coeffs[i], NOT_FINITE[i % NOT_FINITE.len()]);
    }
    assert_eq!(sheet.encode(&coeffs), Ok(encoded));
}

/// All that a sheet may ask for, five channels and the LFE: the body has room in `longest_body`, and that in the header's
/// AC3_LONGEST_BODY, 3,480 bytes a channel.
#[test]
fn the_longest_body() {
    let common = Common { dbpbcod: 3, csnroffst: 63, ..Common::default() };
    let record = |end| ChannelRecord { strategies: [Strategy::D15; 6], fsnroffst: 15, ..ChannelRecord::new(end) };
    let full = (0..MAX_FBW).fold(SheetBuilder::new(common), |builder, _| builder.channel(record(253)));
    assert_eq!(full.check().unwrap().longest_body(), 3480 * MAX_FBW);
    let sheet = full.lfe(record(7)).check().unwrap();
    assert!(sheet.longest_body() < 3480 * sheet.channels());
    let encoded = sheet.encode(&vec![0.9; sheet.entries()]).unwrap();
    assert_eq!(encoded.counts.exponents, [5 * 592 + 18; 6]);
    assert_eq!(encoded.counts.mantissas, [(5 * 253 + 7) * 16; 6]);
    assert_eq!(encoded.body.len(), sheet.longest_body());
}

/// A block's allocation, codes and mantissa bits are those of the steps alone.
fn agrees_with_the_steps(sheet: &Sheet, coeffs: &[f32], frame: &Frame, counts: &Counts) {
    for block in 0..BLOCKS_PER_FRAME {
        let mut exponent_bits = 0;
        let (mut block_bap, mut block_codes) = (Vec::new(), Vec::new());
        for (channel, record) in sheet.records().iter().enumerate() {
            let (part, bins) = (sheet.part(block, channel), sheet.bins(block, channel));
            let (exps, end) = (&frame.exponents[part.clone()], record.end as usize);
            if let Some(span) = record.strategies[block].span() {
                exponent_bits += write_exponents_grouped(&mut [0; 80], exps, end, span).unwrap();
            }
            let mut bap = [0xa5; 256];
            sheet.compute_bap(channel, exps, &mut bap).unwrap();
            assert_eq!(frame.bap[part.clone()], bap);
            for i in bins.clone() {
                let code = quantise_mantissa(coeffs[i], frame.exponents[i].into(), frame.bap[i].into());
                assert_eq!(Ok(frame.codes[i]), code);
            }
            let from_end_on = bins.end..part.end;
            assert!(frame.exponents[from_end_on.clone()].iter().all(|&e| e == 0));
            assert!(frame.codes[from_end_on].iter().all(|&code| code == 0));
            block_bap.extend(&frame.bap[bins.clone()]);
            block_codes.extend(&frame.codes[bins]);
        }
        assert_eq!(counts.exponents[block], exponent_bits);
        assert_eq!(write_mantissa_stream(&mut [0; 3072], &block_bap, &block_codes), Ok(counts.mantissas[block]));
    }
    assert_eq!(sheet.mantissa_bits_total_ends(&frame.bap), Ok(counts.mantissas));
}

#[test]
fn random_frames_are_read_back_and_written_again() {
    let mut random = Random(2);
    for _ in 0..150 {
        let sheet = random.sheet();
        let coeffs = random.coeffs(&sheet);
        let encoded = sheet.encode(&coeffs).unwrap();
        agrees_with_the_steps(&sheet, &coeffs, &encoded.frame, &encoded.counts);

        let rest = random.bytes(9);
        let reading = sheet.read(&[&encoded.body[..], &rest].concat()).unwrap();
        assert_eq!((&reading.frame, reading.counts), (&encoded.frame, encoded.counts));
        assert_eq!(reading.bits, encoded.counts.total());

        let mut body = [&vec![0; encoded.body.len()][..], &rest].concat();
        assert_eq!(sheet.write_body(&reading.frame.exponents, &reading.frame.codes, &mut body), Ok(encoded.counts));
        assert_eq!(body, [&encoded.body[..], &rest].concat());
        assert_eq!(sheet.write(&reading.frame), Ok(encoded.body.clone()));

        let short = random.below(encoded.body.len() as u64) as usize;
        assert_eq!(sheet.read(&encoded.body[..short]), Err(Refusal::PastInput));
    }
}

/// Bytes that no encoder wrote, or a body with one bit turned: a frame that is written and read back the same, or 7, 8,
/// 9.
#[test]
fn any_input_is_read_or_refused() {
    let mut random = Random(3);
    let mut read = 0;
    for _ in 0..300 {
        let sheet = random.sheet();
        let mut input = sheet.encode(&random.coeffs(&sheet)).unwrap().body;
        let bit = random.below(8 * input.len() as u64) as usize;
        input[bit / 8] ^= 0x80 >> (bit % 8);
        let noise = random.bytes(input.len());
        for input in [input, noise] {
            match sheet.read(&input) {
                Ok(reading) => {
                    read += 1;
                    assert_eq!(reading.bits, reading.counts.total());
                    let body = sheet.write(&reading.frame).unwrap();
                    assert_eq!(sheet.read(&body).unwrap(), reading);
                }
                Err(refusal) => assert!(refusal.zeroes_outputs(), "{refusal}"),
            }
        }
    }
    assert!(read > 100, "{read} inputs were read");
}
