//! Every step called alone, at ends 37, 133 and 253 where it has one; the allocation at the LFE's end too.
use crate::entries;
use crate::groups;
use crate::inputs::{extracted, frames, frames_of, row, size_of, Input, MANY};
use crate::source::{bools, packed};
use crate::timing::{median, times};
use crate::{head, line};
use rust_reference::model as m;
use std::hint::black_box;

const ENDS: [u8; 3] = [37, 133, 253];

/// The names that the Rust's choice of a strategy looks up.
pub const SWITCHES: [&str; 4] = ["AC3_EXPSTR_D45_THR", "AC3_EXPSTR_D25_THR", "AC3_DISABLE_D45", "AC3_FORCE_EXPSTR"];

pub fn run(rounds: usize) {
    let each: Vec<(u8, Vec<Input>)> = ENDS.iter().map(|&end| (end, frames(1, end))).collect();
    head("Steps", &["Rust"]);
    each.iter().for_each(|(end, all)| extraction(rounds, all, *end));
    lfe_shaping(rounds);
    each.iter().for_each(|(end, all)| shaping(rounds, all, *end));
    groups::run(rounds);
    each.iter().for_each(|(end, all)| strategies(rounds, all, *end));
    selection(rounds);
    allocation(rounds, 7, "end 7, sheet of six channels", &frames(6, 37), 5);
    allocation(rounds, 7, "end 7, sheet of one channel and the LFE", &frames_of(1, 1, 37), 1);
    [37, 133, 253].into_iter().for_each(|end| allocation(rounds, end, &format!("end {end}"), &frames(1, end), 0));
    each.iter().for_each(|(end, all)| quantiser(rounds, all, *end));
    count(rounds);
    environment(rounds);
    let forms = [
        "Rust, stand-in writer",
        "Rust, stand-in writer, same tests",
        "Rust, byte-packing writer",
        "Rust, byte-packing writer, same tests",
    ];
    head("Steps that write bits", &forms);
    each.iter().for_each(|(end, all)| exponent_writer(rounds, all, *end));
    each.iter().for_each(|(end, all)| mantissa_writer(rounds, all, &size_of(1, *end)));
    mantissa_writer(rounds, &frames(6, 253), &size_of(6, 253));
    head("Steps that the Rust has not", &[]);
    sheets(rounds);
    each.iter().for_each(|(end, all)| readers(rounds, all, *end));
}

/// The port beside the Rust, or beside another call of its own.
pub fn both(rounds: usize, step: &str, size: &str, mut port: impl FnMut(usize), mut rust: impl FnMut(usize)) {
    let taken = times(rounds, &mut [&mut port, &mut rust]);
    line(step, size, &taken);
}

/// Lets nobody leave out what was worked out.
pub fn keep<T>(x: T) {
    black_box(x);
}

/// The coefficients of block 0, channel 0.
fn first_block(i: &Input) -> &[f32] {
    &i.coeffs[..i.sheet.end(0)]
}

fn extraction(rounds: usize, all: &[Input], end: u8) {
    let (mut a, mut b) = ([0u8], [0u8]);
    let port = |i: usize| first_block(&all[i % MANY]).iter().for_each(|&x| keep(entries::extract_exponent(x, black_box(&mut a))));
    let rust = |i: usize| first_block(&all[i % MANY]).iter().for_each(|&x| packed::exponent(x, black_box(&mut b)));
    both(rounds, "extract_exponent", &format!("{end} calls"), port, rust);
}

fn d15(rounds: usize, raw: &[Vec<u8>], size: &str) {
    let (mut a, mut b) = (raw[0].clone(), raw[0].clone());
    let port = |i: usize| {
        a.copy_from_slice(&raw[i % MANY]);
        keep(entries::preprocess_d15(black_box(&mut a)));
    };
    let rust = |i: usize| {
        b.copy_from_slice(&raw[i % MANY]);
        packed::d15(black_box(&mut b));
    };
    both(rounds, "preprocess_d15", size, port, rust);
}

/// The LFE, whose seven bins the port passes as the Rust does.
fn lfe_shaping(rounds: usize) {
    let raw: Vec<Vec<u8>> = frames_of(1, 1, 37).iter().map(|i| extracted(i, 1)).collect();
    d15(rounds, &raw, "end 7");
}

fn shaping(rounds: usize, all: &[Input], end: u8) {
    let raw: Vec<Vec<u8>> = all.iter().map(|i| extracted(i, 0)).collect();
    let mut shaped = raw.clone();
    shaped.iter_mut().for_each(|e| packed::d15(e));
    let (mut a, mut b) = (raw[0].clone(), raw[0].clone());
    let size = format!("end {end}");
    d15(rounds, &raw, &size);
    for span in [2, 4] {
        let port = |i: usize| {
            a.copy_from_slice(&shaped[i % MANY]);
            keep(entries::quantise_exponents_to_grpsize(black_box(&mut a), span));
        };
        let rust = |i: usize| {
            b.copy_from_slice(&shaped[i % MANY]);
            packed::spans(black_box(&mut b), span);
        };
        both(rounds, &format!("quantise_exponents_to_grpsize, span {span}"), &size, port, rust);
    }
}

fn strategies(rounds: usize, all: &[Input], end: u8) {
    let raw: Vec<Vec<u8>> = all.iter().map(|i| extracted(i, 0)).collect();
    let (mut a, mut b) = ([0u8], [0u8]);
    let port = |i: usize| keep(entries::pick_strategy_for_block(&raw[i % MANY], end as usize, black_box(&mut a)));
    let rust = |i: usize| packed::pick(&raw[i % MANY], end as usize, black_box(&mut b));
    both(rounds, "pick_strategy_for_block (the Rust with its four switches)", &format!("end {end}"), port, rust);
}

/// Rows of one buffer as the source takes them, channel by block.
fn nested(i: &Input, buffer: &[u8], channel: usize) -> Vec<[u8; 256]> {
    (0..6).map(|b| row(&buffer[i.sheet.at(b, channel)..][..256])).collect()
}

fn selection(rounds: usize) {
    let all = frames(5, 253);
    let rows: Vec<Vec<Vec<[u8; 256]>>> = all.iter().map(|i| (0..5).map(|c| nested(i, &i.frame.exps, c)).collect()).collect();
    let mut a = [0u8; 30];
    let port = |i: usize| keep(entries::select_exp_strategies_per_end(&all[i % MANY].frame.exps, &[253; 5], black_box(&mut a)));
    let rust = |i: usize| keep(packed::select(&rows[i % MANY], &[253; 5]));
    both(rounds, "select_exp_strategies_per_end (the Rust with ten times four switches)", "5 channels, end 253", port, rust);
}

/// The entry, and less what it does before it allocates: the sheet check, the reading of the channel's record and the test of its range, which a
/// call has in common with one that is refused for a slice too long. The Rust gets its parameters ready made. The LFE is timed under two sheets,
/// since the longer one's check is most of both calls.
fn allocation(rounds: usize, end: u8, size: &str, all: &[Input], channel: usize) {
    let n = end as usize;
    let exps: Vec<[u8; 256]> = all.iter().map(|i| row(&i.frame.exps[i.sheet.at(0, channel)..][..n])).collect();
    let channels: Vec<packed::Channel> = all.iter().map(|i| packed::Channel::of(&i.sheet, channel)).collect();
    let (mut a, mut b, mut c) = ([0u8; 256], [0u8; 256], [0u8; 256]);
    let long = [0u8; 257];
    let taken = times(
        rounds,
        &mut [
            &mut |i| keep(entries::compute_bap(&all[i % MANY].bytes, channel as u32, &exps[i % MANY][..n], black_box(&mut a[..n]))),
            &mut |i| channels[i % MANY].bap(&exps[i % MANY], n, black_box(&mut b)),
            &mut |i| keep(entries::compute_bap(&all[i % MANY].bytes, channel as u32, &long, black_box(&mut c[..n]))),
        ],
    );
    line("compute_bap, the entry with its sheet check and record", size, &taken[..2]);
    let less = taken[0].iter().zip(&taken[2]).map(|(whole, before)| whole - before).collect();
    line("compute_bap, the allocation alone", size, &[less, taken[1].clone()]);
}

fn quantiser(rounds: usize, all: &[Input], end: u8) {
    let (mut a, mut b) = ([0u16], [0u16]);
    let port = |i: usize| {
        let (x, f) = (first_block(&all[i % MANY]), &all[i % MANY].frame);
        for k in 0..x.len() {
            keep(entries::quantise_mantissa(x[k], f.exps[k] as u32, f.baps[k].max(1) as u32, black_box(&mut a)));
        }
    };
    let rust = |i: usize| {
        let (x, f) = (first_block(&all[i % MANY]), &all[i % MANY].frame);
        for k in 0..x.len() {
            packed::code(x[k], f.exps[k] as i32, f.baps[k].max(1), black_box(&mut b));
        }
    };
    both(rounds, "quantise_mantissa", &format!("{end} calls"), port, rust);
}

fn count(rounds: usize) {
    let all = frames(6, 253);
    let rows: Vec<Vec<Vec<[u8; 256]>>> = all
        .iter()
        .map(|i| {
            let mut v: Vec<_> = (0..5).map(|c| nested(i, &i.frame.baps, c)).collect();
            v.push(vec![[0; 256]; 6]); // the coupling channel's place
            v.push(nested(i, &i.frame.baps, 5));
            v
        })
        .collect();
    let mut a = [0u32; 6];
    let port = |i: usize| keep(entries::mantissa_bits_total_ends(&all[i % MANY].bytes, &all[i % MANY].frame.baps, black_box(&mut a)));
    let rust = |i: usize| keep(packed::count(&rows[i % MANY], &[253; 5], true));
    both(rounds, "mantissa_bits_total_ends", "6 blocks of 6 channels, end 253", port, rust);
}

/// What the Rust's choice of a strategy spends on its switches.
fn environment(rounds: usize) {
    let mut looks = |_: usize| SWITCHES.iter().for_each(|n| keep(std::env::var(n)));
    let taken = times(rounds, &mut [&mut looks]);
    println!("\nThe four switches alone take {:.0} ns.", median(taken[0].iter().copied()));
}

/// The test of refusal 4, in one pass without divisions.
fn shaped_for(exp: &[u8], span: usize) -> bool {
    let mut left = 0; // bins of the span that are still to come
    for i in 1..exp.len() {
        let step = exp[i].wrapping_sub(exp[i - 1]).wrapping_add(2);
        if exp[i] > 24 || step > 4 || (left > 0 && step != 2) {
            return false;
        }
        left = if left == 0 { span - 1 } else { left - 1 };
    }
    exp[0] <= 15
}

fn exponent_writer(rounds: usize, all: &[Input], end: u8) {
    let n = end as usize;
    for span in [1, 2, 4] {
        let shaped = |i: &Input| {
            let mut e = extracted(i, 0);
            packed::d15(&mut e);
            packed::spans(&mut e, span);
            row(&e)
        };
        let sets: Vec<[u8; 256]> = all.iter().map(shaped).collect();
        let set = |i: usize| &sets[i % MANY];
        let (mut out, mut bits) = ([0u8; 80], [0u32]);
        let (mut standin, mut standin_too, mut lean, mut lean_too) =
            (bools::Sink::new(), bools::Sink::new(), packed::Sink::new(), packed::Sink::new());
        let tested = |i: usize| if shaped_for(&set(i)[..n], span) { set(i) } else { panic!("not shaped") };
        let taken = times(
            rounds,
            &mut [
                &mut |i| keep(entries::write_exponents_grouped(black_box(&mut out), &set(i)[..n], n, span, &mut bits)),
                &mut |i| keep(standin.exponents(set(i), n, span)),
                &mut |i| keep(standin_too.exponents(tested(i), n, span)),
                &mut |i| keep(lean.exponents(set(i), n, span)),
                &mut |i| keep(lean_too.exponents(tested(i), n, span)),
            ],
        );
        line(&format!("write_exponents_grouped, span {span}"), &format!("end {end}"), &taken);
    }
}

/// The bap and codes of block 0, all channels one after the other.
fn stream(i: &Input) -> (Vec<u8>, Vec<u16>) {
    let (mut bap, mut codes) = (Vec::new(), Vec::new());
    for part in (0..i.sheet.c()).map(|c| i.sheet.at(0, c)..i.sheet.at(0, c) + i.sheet.end(c)) {
        bap.extend_from_slice(&i.frame.baps[part.clone()]);
        codes.extend(i.frame.codes[part].iter().map(|&c| c as u16));
    }
    (bap, codes)
}

fn mantissa_writer(rounds: usize, all: &[Input], size: &str) {
    let streams: Vec<(Vec<u8>, Vec<u16>)> = all.iter().map(stream).collect();
    let both: Vec<Vec<(u8, u32)>> = streams.iter().map(|(b, c)| b.iter().zip(c).map(|(&b, &c)| (b, c as u32)).collect()).collect();
    let pairs = |i: usize| &both[i % MANY];
    let (mut out, mut bits) = (vec![0u8; 3100], [0u32]);
    let (mut standin, mut standin_too, mut lean, mut lean_too) =
        (bools::Sink::new(), bools::Sink::new(), packed::Sink::new(), packed::Sink::new());
    let tested = |i: usize| if pairs(i).iter().all(|&(b, c)| b < 16 && c < m::code_count(b)) { pairs(i) } else { panic!("no code") };
    let taken = times(
        rounds,
        &mut [
            &mut |i| keep(entries::write_mantissa_stream(black_box(&mut out), &streams[i % MANY].0, &streams[i % MANY].1, &mut bits)),
            &mut |i| keep(standin.mantissas(pairs(i))),
            &mut |i| keep(standin_too.mantissas(tested(i))),
            &mut |i| keep(lean.mantissas(pairs(i))),
            &mut |i| keep(lean_too.mantissas(tested(i))),
        ],
    );
    line("write_mantissa_stream", size, &taken);
}

fn sheets(rounds: usize) {
    for channels in [1, 2, 6] {
        let all = frames(channels, 253);
        let taken = times(rounds, &mut [&mut |i| keep(entries::check_sheet(&all[i % MANY].bytes))]);
        line("check_sheet", &size_of(channels, 253), &taken);
    }
}

fn readers(rounds: usize, all: &[Input], end: u8) {
    let (n, mut bits) = (end as usize, [0u32]);
    let mut set = |i: &Input| {
        let (mut out, mut e) = (vec![0u8; 80], extracted(i, 0));
        packed::d15(&mut e);
        entries::write_exponents_grouped(&mut out, &e, n, 1, &mut bits);
        out
    };
    let sets: Vec<Vec<u8>> = all.iter().map(&mut set).collect();
    let mut e = [0u8; 256];
    let taken = times(rounds, &mut [&mut |i| keep(entries::read_exponents_grouped(&sets[i % MANY], &mut e[..n], n, 1, &mut bits))]);
    line("read_exponents_grouped, span 1", &format!("end {end}"), &taken);
    let streams: Vec<(Vec<u8>, Vec<u16>)> = all.iter().map(stream).collect();
    let mut written = vec![vec![0u8; 3100]; MANY];
    for (out, (bap, codes)) in written.iter_mut().zip(&streams) {
        entries::write_mantissa_stream(out, bap, codes, &mut bits);
    }
    let mut codes = vec![0u16; n];
    let taken =
        times(rounds, &mut [&mut |i| keep(entries::read_mantissa_stream(&written[i % MANY], &streams[i % MANY].0, &mut codes, &mut bits))]);
    line("read_mantissa_stream", &size_of(1, end), &taken);
}
