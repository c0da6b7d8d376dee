//! Every refusal through the safe API, each by a small input, and what it leaves: 1 to 6, 10 and 11 everything, 7 to 9
//! outputs of 0. src/causes.rs has the order of a sheet's causes on the entries behind it.
mod support;

use ac3core::{steps::*, Frame, Refusal, Sheet};
use support::{example, loud_example, put_bits, Random, EXAMPLE, NOT_FINITE};
use Refusal::*;

/// The table of document 01 and what document 02 adds: number, name, cause in words.
const TABLE: [(u32, Refusal, &str); 11] = [
    (1, Structure, "a sheet of fewer than 12 bytes, length not matching the bytes, version, or a record cut short"),
    (2, OutOfRange, "a value outside its range, channel twice or missing"),
    (3, NotFinite, "coefficient below end not finite"),
    (4, BadExponent, "exponents not shaped, not repeated, or (allocation, mantissas) above 24"),
    (5, BadCode, "bap above 15, code out of range"),
    (6, NoRoom, "body, or a step's bits, longer than the output"),
    (7, PastInput, "a field runs past the input"),
    (8, BadGroup, "group above 124, or exponent outside 0..24"),
    (9, NoCode, "mantissa value no code has"),
    (10, WrongLength, "buffer or slice of the wrong length"),
    (11, OutOfOrder, "the records are not in ascending order of channel"),
];

#[test]
fn numbers_and_words() {
    assert_eq!(TABLE.map(|(_, refusal, _)| refusal)[..], *Refusal::ALL);
    for (number, refusal, cause) in TABLE {
        assert_eq!((refusal.number(), refusal.cause()), (number, cause));
        assert_eq!(Refusal::from_number(number), Some(refusal));
        assert_eq!(refusal.to_string(), format!("refused {number}: {cause}"));
        assert_eq!(refusal.zeroes_outputs(), (7..=9).contains(&number));
        let error: Box<dyn std::error::Error> = refusal.into();
        assert_eq!(error.to_string(), refusal.to_string());
    }
    for number in [0, 12, u32::MAX] {
        assert_eq!(Refusal::from_number(number), None);
    }
}

/// What stands in every buffer before a call.
const MARK: u8 = 0x5a;

/// The buffers of a frame and a body of `room` bytes, all marked.
fn marked(sheet: &Sheet, room: usize) -> (Frame, Vec<u8>) {
    let n = sheet.entries();
    let frame = Frame { exponents: vec![MARK; n], bap: vec![MARK; n], codes: vec![MARK.into(); n] };
    (frame, vec![MARK; room])
}

/// `encode_body` into marked buffers is refused and leaves them.
fn encode_refused(sheet: &Sheet, coeffs: &[f32], room: usize, refusal: Refusal) {
    let (mut frame, mut body) = marked(sheet, room);
    let answer = sheet.encode_body(coeffs, &mut frame.exponents, &mut frame.bap, &mut frame.codes, &mut body);
    assert_eq!(answer, Err(refusal));
    assert_eq!((frame, body), marked(sheet, room));
}

/// `write_body` into a marked body is refused and leaves it.
fn write_refused(sheet: &Sheet, exps: &[u8], codes: &[u16], room: usize, refusal: Refusal) {
    let mut body = vec![MARK; room];
    assert_eq!(sheet.write_body(exps, codes, &mut body), Err(refusal));
    assert_eq!(body, vec![MARK; room]);
}

/// `read_body` into marked buffers is refused and leaves them, or makes them 0.
fn read_refused(sheet: &Sheet, input: &[u8], refusal: Refusal) {
    let (mut frame, _) = marked(sheet, 0);
    let answer = sheet.read_body(input, &mut frame.exponents, &mut frame.bap, &mut frame.codes);
    assert_eq!(answer, Err(refusal));
    assert_eq!(frame, if refusal.zeroes_outputs() { Frame::new(sheet) } else { marked(sheet, 0).0 });
}

/// A slice of marks after a call that refused it.
fn left_by<T: From<u8> + PartialEq>(refusal: Refusal, slice: &[T]) -> bool {
    let want = T::from(if refusal.zeroes_outputs() { 0 } else { MARK });
    slice.iter().all(|x| *x == want)
}

#[test]
fn structure() {
    assert_eq!(Sheet::check(&[]), Err(Structure));
    let mut version = EXAMPLE;
    version[2] = 2;
    assert_eq!(Sheet::check(&version), Err(Structure));
    let mut length = EXAMPLE;
    length[1] += 1;
    assert_eq!(Sheet::check(&length), Err(Structure));
    let mut cut = EXAMPLE;
    cut[22] = 1; // a segment that is not there
    assert_eq!(Sheet::check(&cut), Err(Structure));
}

#[test]
fn out_of_range() {
    let mut fscod = EXAMPLE;
    fscod[3] = 3;
    assert_eq!(Sheet::check(&fscod), Err(OutOfRange));
    let mut missing = EXAMPLE;
    missing[4] = 2;
    assert_eq!(Sheet::check(&missing), Err(OutOfRange));
    let twice = [&[0, 0x20], &EXAMPLE[2..4], &[2], &EXAMPLE[5..], &EXAMPLE[12..]].concat();
    assert_eq!(Sheet::check(&twice), Err(OutOfRange));

    let mut bap = [MARK; 37];
    assert_eq!(example().compute_bap(1, &[0; 37], &mut bap), Err(OutOfRange));
    assert!(left_by(OutOfRange, &bap));
    let mut exp = [MARK; 7];
    assert_eq!(quantise_exponents_to_grpsize(&mut exp, 3), Err(OutOfRange));
    assert_eq!(read_exponents_grouped(&[0; 9], &mut exp, 8, 1), Err(OutOfRange));
    assert_eq!(read_exponents_grouped(&[0; 9], &mut exp, 7, 0), Err(OutOfRange));
    assert!(left_by(OutOfRange, &exp));
    let mut out = [MARK; 9];
    assert_eq!(write_exponents_grouped(&mut out, &[0; 7], 6, 1), Err(OutOfRange));
    assert_eq!(write_exponents_grouped(&mut out, &[0; 7], usize::MAX, 1), Err(OutOfRange));
    assert!(left_by(OutOfRange, &out));
    assert_eq!(ngrps_for_strategy(257, 1), Err(OutOfRange));
    assert_eq!(ngrps_for_strategy(256, 3), Err(OutOfRange));
    assert_eq!(pick_strategy_for_block(&[0; 256], 257), Err(OutOfRange));
    assert_eq!(select_exp_strategies_per_end(&[], &[]), Err(OutOfRange));
    assert_eq!(select_exp_strategies_per_end(&[0; 1536], &[257]), Err(OutOfRange));
    assert_eq!(select_exp_strategies_per_end(&[0; 7 * 1536], &[37; 7]), Err(OutOfRange));
}

/// Two records that change places, then with a fault of structure or of range beside that.
#[test]
fn out_of_order() {
    let head = [0, 0x20, 1, 0, 2, 0, 0, 0, 0, 0, 0, 0];
    let [zero, one] = [0, 1].map(|channel| [channel, 37, 1, 0, 0, 0, 0, 0, 0, 0, 0]);
    assert!(Sheet::check(&[&head[..], &zero, &one].concat()).is_ok());
    let turned = [&head[..], &one, &zero].concat();
    assert_eq!(Sheet::check(&turned), Err(OutOfOrder));
    for (at, value, refusal) in [
        (2, 0, Structure),   // version
        (33, 1, Structure),  // a segment that is not there
        (3, 3, OutOfRange),  // fscod
        (4, 3, OutOfRange),  // a channel is missing
        (23, 1, OutOfRange), // a channel is there twice
        (32, 8, OutOfRange), // fgaincod of the last record
    ] {
        let mut bytes = turned.clone();
        bytes[at] = value;
        assert_eq!(Sheet::check(&bytes), Err(refusal), "byte {at}");
    }
}

#[test]
fn not_finite() {
    for bits in NOT_FINITE {
        assert_eq!(extract_exponent(f32::from_bits(bits)), Err(NotFinite), "{bits:08x}");
        assert_eq!(quantise_mantissa(f32::from_bits(bits), 0, 15), Err(NotFinite), "{bits:08x}");
        assert_eq!(quantise_mantissa(f32::from_bits(bits), 25, 16), Err(NotFinite), "{bits:08x}");
        let sheet = example();
        let mut coeffs = vec![0.0; sheet.entries()];
        put_bits(&mut coeffs[37], bits); // from end on it is ignored
        assert_eq!(sheet.encode(&coeffs).map(|encoded| encoded.counts.total()), Ok(88));
        put_bits(&mut coeffs[sheet.part(5, 0)][36], bits);
        assert_eq!(sheet.encode(&coeffs), Err(NotFinite));
        encode_refused(&sheet, &coeffs, 0, NotFinite);
    }
}

/// One coefficient that is not finite, in every block and channel of frames at random.
#[test]
fn not_finite_in_a_frame() {
    let mut random = Random(4);
    for bits in NOT_FINITE {
        let sheet = random.sheet();
        let coeffs = random.coeffs(&sheet);
        let encoded = sheet.encode(&coeffs).unwrap();
        for (block, channel) in (0..6).flat_map(|block| (0..sheet.channels()).map(move |channel| (block, channel))) {
            let (part, bins) = (sheet.part(block, channel), sheet.bins(block, channel));
            for i in [bins.start, bins.end - 1, bins.end, part.end - 1] {
                let mut coeffs = coeffs.clone();
                put_bits(&mut coeffs[i], bits);
                if i < bins.end {
                    encode_refused(&sheet, &coeffs, sheet.longest_body(), NotFinite);
                } else {
                    assert_eq!(sheet.encode(&coeffs).as_ref(), Ok(&encoded));
                }
            }
        }
    }
}

#[test]
fn bad_exponent() {
    assert_eq!(quantise_mantissa(0.0, 25, 16), Err(BadExponent));
    let mut bap = [MARK; 37];
    assert_eq!(example().compute_bap(0, &[25; 37], &mut bap), Err(BadExponent));
    assert!(left_by(BadExponent, &bap));
    let mut out = [MARK; 9];
    assert_eq!(write_exponents_grouped(&mut out, &[16; 7], 7, 1), Err(BadExponent));
    assert_eq!(write_exponents_grouped(&mut out, &[4, 7, 7, 7, 7, 7, 7], 7, 1), Err(BadExponent));
    assert_eq!(write_exponents_grouped(&mut out, &[4, 4, 5, 5, 5, 5, 5], 7, 2), Err(BadExponent));
    assert!(left_by(BadExponent, &out));

    let sheet = example();
    let codes = vec![0; sheet.entries()];
    let mut exps = vec![15; sheet.entries()];
    exps[37] = 25; // from end on it is ignored
    assert!(sheet.write_body(&exps, &codes, &mut [0; 11]).is_ok());
    exps[sheet.part(3, 0)][36] = 14; // block 3 is reuse
    write_refused(&sheet, &exps, &codes, 0, BadExponent);
    write_refused(&sheet, &vec![16; sheet.entries()], &codes, 0, BadExponent);
}

#[test]
fn bad_code() {
    assert_eq!(quantise_mantissa(0.0, 24, 16), Err(BadCode));
    let mut out = [MARK; 9];
    assert_eq!(write_mantissa_stream(&mut out, &[16], &[0]), Err(BadCode));
    for (bap, beyond) in [(0, 1), (1, 3), (2, 5), (3, 7), (4, 11), (5, 15), (6, 32), (14, 1 << 14)] {
        assert_eq!(write_mantissa_stream(&mut out, &[bap], &[beyond]), Err(BadCode), "bap {bap}");
        assert!(left_by(BadCode, &out));
        assert!(write_mantissa_stream(&mut [0; 2], &[bap], &[beyond - 1]).is_ok(), "bap {bap}");
    }
    let mut codes = [u16::from(MARK)];
    assert_eq!(read_mantissa_stream(&[], &[16], &mut codes), Err(BadCode));
    assert!(left_by(BadCode, &codes));

    let sheet = example();
    let mut bap = vec![0; sheet.entries()];
    bap[37] = 16; // from end on it is ignored
    assert_eq!(sheet.mantissa_bits_total_ends(&bap), Ok([0; 6]));
    bap[36] = 16;
    assert_eq!(sheet.mantissa_bits_total_ends(&bap), Err(BadCode));
    let mut codes = vec![0; sheet.entries()];
    codes[sheet.part(5, 0)][36] = 1; // exponents of 15 get bap 0 here
    write_refused(&sheet, &vec![15; sheet.entries()], &codes, 0, BadCode);
}

#[test]
fn no_room() {
    let mut out = [MARK; 2];
    assert_eq!(write_exponents_grouped(&mut out, &[0; 7], 7, 1), Err(NoRoom)); // 18 bits
    assert_eq!(write_mantissa_stream(&mut out, &[15, 6], &[0, 0]), Err(NoRoom)); // 21 bits
    assert!(left_by(NoRoom, &out));
    assert_eq!(write_mantissa_stream(&mut [], &[0], &[0]), Ok(0)); // no bits need no room
    let sheet = example();
    let n = sheet.entries();
    encode_refused(&sheet, &vec![0.0; n], 10, NoRoom); // 88 bits
    write_refused(&sheet, &vec![15; n], &vec![0; n], 10, NoRoom);
}

#[test]
fn past_input() {
    let mut exp = [MARK; 256];
    assert_eq!(read_exponents_grouped(&[], &mut exp, 7, 1), Err(PastInput));
    assert!(left_by(PastInput, &exp));
    let mut codes = [u16::from(MARK); 2];
    assert_eq!(read_mantissa_stream(&[0xff; 2], &[15, 6], &mut codes), Err(PastInput));
    assert!(left_by(PastInput, &codes));
    read_refused(&example(), &[], PastInput);
    let sheet = loud_example();
    let body = sheet.encode(&vec![0.1; sheet.entries()]).unwrap().body;
    for n in 0..body.len() {
        read_refused(&sheet, &body[..n], PastInput);
    }
}

#[test]
fn bad_group() {
    // 0, then a group of three +2 (124) and one of three zero deltas (62).
    let mut exp = [MARK; 7];
    assert_eq!(read_exponents_grouped(&[0b0000_1111, 0b100_01111, 0b10_000000], &mut exp, 7, 1), Ok(18));
    assert_eq!(exp, [0, 2, 4, 6, 6, 6, 6]);
    for input in [
        [0b0000_1111, 0b101_00000, 0], // 125
        [0b0000_0000, 0b000_00000, 0], // 0, then -2
        [0b1111_1111, 0b100_11111, 0], // 15, then six times +2
    ] {
        exp.fill(MARK);
        assert_eq!(read_exponents_grouped(&input, &mut exp, 7, 1), Err(BadGroup), "{input:?}");
        assert!(left_by(BadGroup, &exp));
    }
    read_refused(&example(), &[0xff; 11], BadGroup);
}

#[test]
fn no_code() {
    let mut codes = [u16::from(MARK)];
    for (bap, bits, width) in [(1, 27, 5), (2, 125, 7), (3, 7, 3), (4, 121, 7), (5, 15, 4)] {
        assert_eq!(
            read_mantissa_stream(&[(bits - 1) << (8 - width)], &[bap], &mut codes),
            Ok(width as u32),
            "bap {bap}"
        );
        codes.fill(MARK.into());
        assert_eq!(read_mantissa_stream(&[bits << (8 - width)], &[bap], &mut codes), Err(NoCode), "bap {bap}");
        assert!(left_by(NoCode, &codes));
    }
    // The body of an exponent set, and ones for its first mantissas.
    let sheet = first_bap_of(5);
    let exps = vec![0; sheet.entries()];
    let mut body = vec![0xff; sheet.longest_body()];
    sheet.write_body(&exps, &vec![0; sheet.entries()], &mut body).unwrap();
    body[11..].fill(0xff);
    read_refused(&sheet, &body, NoCode);
}

/// The example with a csnroffst at which exponents of 0 give the first bin this bap.
fn first_bap_of(want: u8) -> Sheet {
    let bytes_at = |csnroffst| {
        let mut bytes = EXAMPLE;
        bytes[11] = csnroffst;
        bytes
    };
    let first = |sheet: &Sheet| {
        let mut bap = [0; 37];
        sheet.compute_bap(0, &[0; 37], &mut bap).unwrap();
        bap[0]
    };
    let mut sheets = (0..64).map(|csnroffst| Sheet::check(&bytes_at(csnroffst)).unwrap());
    sheets.find(|sheet| first(sheet) == want).expect("a csnroffst with this bap")
}

#[test]
fn wrong_length() {
    let mut exp = [MARK; 257];
    assert_eq!(quantise_exponents_to_grpsize(&mut exp, 1), Err(WrongLength));
    assert_eq!(preprocess_d15(&mut exp), Err(WrongLength));
    assert_eq!(read_exponents_grouped(&[], &mut exp, 7, 1), Err(WrongLength));
    assert_eq!(read_exponents_grouped(&[], &mut exp[..6], 7, 1), Err(WrongLength));
    assert!(left_by(WrongLength, &exp));
    let mut out = [MARK; 9];
    assert_eq!(write_exponents_grouped(&mut out, &[99; 6], 7, 1), Err(WrongLength));
    assert_eq!(write_exponents_grouped(&mut out, &[99; 257], 7, 1), Err(WrongLength));
    assert_eq!(write_mantissa_stream(&mut out, &[16; 2], &[0; 1]), Err(WrongLength));
    assert_eq!(write_mantissa_stream(&mut out, &[16; 1537], &[0; 1537]), Err(WrongLength));
    assert!(left_by(WrongLength, &out));
    let mut codes = [u16::from(MARK); 1537];
    assert_eq!(read_mantissa_stream(&[], &[16; 2], &mut codes[..1]), Err(WrongLength));
    assert_eq!(read_mantissa_stream(&[], &[16; 1537], &mut codes), Err(WrongLength));
    assert!(left_by(WrongLength, &codes));
    assert_eq!(pick_strategy_for_block(&[0; 6], 7), Err(WrongLength));
    assert_eq!(pick_strategy_for_block(&[0; 257], 7), Err(WrongLength));
    assert_eq!(select_exp_strategies_per_end(&[0; 1535], &[37]), Err(WrongLength));
    let mut bap = [MARK; 36];
    assert_eq!(example().compute_bap(0, &[25; 37], &mut bap), Err(WrongLength));
    assert!(left_by(WrongLength, &bap));
    assert_eq!(example().mantissa_bits_total_ends(&[16; 1535]), Err(WrongLength));
}

/// Each buffer of the frame's calls one entry short or long.
#[test]
fn wrong_length_of_a_frame_buffer() {
    let sheet = example();
    let n = sheet.entries();
    let bad = vec![f32::NAN; n + 1];
    for m in [0, n - 1, n + 1] {
        assert_eq!(sheet.encode(&bad[..m]), Err(WrongLength));
        encode_refused(&sheet, &bad[..m], 0, WrongLength);
        write_refused(&sheet, &vec![99; m], &vec![9; n], 0, WrongLength);
        write_refused(&sheet, &vec![99; n], &vec![9; m], 0, WrongLength);
        for short in 0..3 {
            let (mut frame, mut body) = marked(&sheet, 11);
            match short {
                0 => frame.exponents.resize(m, MARK),
                1 => frame.bap.resize(m, MARK),
                _ => frame.codes.resize(m, MARK.into()),
            }
            let before = frame.clone();
            let Frame { exponents, bap, codes } = &mut frame;
            assert_eq!(sheet.encode_body(&bad[..n], exponents, bap, codes, &mut body), Err(WrongLength));
            assert_eq!(sheet.read_body(&[], exponents, bap, codes), Err(WrongLength));
            assert_eq!(frame, before);
            assert!(left_by(WrongLength, &body));
        }
    }
}
