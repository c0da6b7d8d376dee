//! Times the archive beside the Rust that this project was ported from, step by step and for whole frames: same inputs, one process, in
//! turn, medians. See scripts/benchmark and docs/BENCHMARK.md.
#[path = "../differential/entries.rs"]
#[allow(dead_code)]
mod entries;
mod frames;
mod groups;
mod inputs;
mod source;
#[path = "../differential/spectra.rs"]
#[allow(dead_code)]
mod spectra;
mod steps;
mod timing;
mod writers;

use timing::median;

// So many bytes before the archive's code (differential/prepare): where the linker puts a short loop moves its time by a tenth, so the runs that count have several layouts.
extern "C" {
    static layout: u8;
}

/// The head of a table: a step, its size, the port, and each form of the Rust with the port's part of its time.
pub fn head(title: &str, forms: &[&str]) {
    println!("\n{title}\n\n| step | size | port |{}", forms.iter().map(|f| format!(" {f} |")).collect::<String>());
    println!("|---|---|---|{}", "---|".repeat(forms.len()));
}

/// One line of a table, nanoseconds: the port first, then each form of the Rust with the port's time by its own, both medians of the rounds.
/// A ratio above 1 says that the port is slower.
pub fn line(step: &str, size: &str, times: &[Vec<f64>]) {
    let port = median(times[0].iter().copied());
    let form = |t: &Vec<f64>| {
        let ratio = median(times[0].iter().zip(t).map(|(p, r)| p / r));
        format!(" {:.0} ({ratio:.2}) |", median(t.iter().copied()))
    };
    println!("| {step} | {size} | {port:.0} |{}", times[1..].iter().map(form).collect::<String>());
}

/// How much of document 02 the oracle's model has: its sheet check looks at what the archive's looks at. W4 changes no answer here: the spans of
/// the ends that are timed are whole.
const REVISION: u8 = 1;

fn main() {
    rust_reference::revision::set(REVISION);
    for name in steps::SWITCHES {
        std::env::remove_var(name); // document 01: unset
    }
    let rounds = std::env::args().nth(1).map_or(41, |a| a.parse().expect("how many rounds"));
    std::hint::black_box(std::ptr::addr_of!(layout)); // else the linker leaves the bytes out
    println!("Layout: {} bytes before the archive's code.", env!("LAYOUT"));
    println!("Medians of {rounds} rounds in which all sides take turns: nanoseconds a call, in brackets the port's time by the Rust's of the same round.");
    println!("Buffers: outputs are made once and not cleared between calls; a step that works in place gets a fresh copy on both sides.");
    steps::run(rounds);
    frames::run(rounds);
}
