//! Compares every entry of the archive, and the program, with the Rust that this project was ported from: values, counts, refusals, the bytes
//! written and those left. See scripts/differential for the ways to call it.
mod cases;
mod entries;
mod frames;
mod layouts;
mod program;
mod reconstruct;
mod scan;
mod short;
mod spectra;
mod tally;
mod thresholds;

use tally::Tally;

const HELP: &str =
    "differential [COUNT [SEED [PART ..]]]   COUNT random cases a step (1000), seed SEED (1); PART: a step, short, reconstruct, spectra, thresholds
differential --frames N [--seed S] [--first I]   N random frames, from number I (0) on
differential --scan   extraction over every magnitude of an f32, and all bits of what is not finite";

/// How much of document 02 the oracle's model has: it is document 01 with W1 to W4; W2 changes no answer.
const REVISION: u8 = 4;

/// The names that `pick_strategy_for_block` of the Rust looks up; document 01 has them unset.
const SWITCHES: [&str; 4] = ["AC3_EXPSTR_D45_THR", "AC3_EXPSTR_D25_THR", "AC3_DISABLE_D45", "AC3_FORCE_EXPSTR"];

fn number(text: Option<&String>) -> u64 {
    text.and_then(|a| a.parse().ok()).unwrap_or_else(|| {
        eprintln!("{HELP}");
        std::process::exit(2)
    })
}

/// The value after a flag, if the flag is there.
fn flag(args: &[String], name: &str) -> Option<u64> {
    args.iter().position(|a| a == name).map(|at| number(args.get(at + 1)))
}

/// The oracle's cases of each step, then short inputs, reconstruction, spectra and thresholds; or the parts that are named. `reconstruct` is a
/// step of the oracle's and a part, and names both.
fn everything(tally: &mut Tally, args: &[String]) {
    let count = args.first().map_or(1000, |a| number(Some(a)));
    let seed = args.get(1).map_or(1, |a| number(Some(a)));
    let named = args.get(2..).unwrap_or(&[]);
    let wanted = |part: &str| named.is_empty() || named.iter().any(|n| n == part);
    for step in cases::STEPS.into_iter().filter(|s| wanted(s)) {
        cases::run(tally, step, count, seed);
    }
    if wanted("short") {
        short::run(tally);
    }
    if wanted("reconstruct") {
        reconstruct::run(tally, count, seed);
    }
    if wanted("spectra") {
        layouts::run(tally, seed);
    }
    if wanted("thresholds") {
        thresholds::run(tally, count, seed);
    }
}

fn main() {
    rust_reference::revision::set(REVISION);
    SWITCHES.iter().for_each(|name| std::env::remove_var(name));
    let args: Vec<String> = std::env::args().skip(1).collect();
    let mut tally = Tally::default();
    if let Some(count) = flag(&args, "--frames") {
        frames::soak(&mut tally, count, flag(&args, "--seed").unwrap_or(1), flag(&args, "--first").unwrap_or(0));
    } else if args.first().is_some_and(|a| a == "--scan") {
        scan::run(&mut tally);
    } else {
        everything(&mut tally, &args);
    }
    tally.print();
    println!("{} differences", tally.differences());
    std::process::exit((tally.differences() != 0) as i32);
}
