//! Rounds in which all sides take turns, on the same inputs in one process. The processor time of this thread is what counts,
//! so that other work on the machine disturbs little.

/// How long one side runs in one round, at least.
const SLICE_NS: f64 = 1.0e6;

/// C's `struct timespec`.
#[repr(C)]
#[derive(Default)]
struct Timespec {
    seconds: i64,
    nanoseconds: i64,
}

extern "C" {
    fn clock_gettime(clock: i32, time: *mut Timespec) -> i32;
}

/// Linux's CLOCK_THREAD_CPUTIME_ID.
const THREAD_TIME: i32 = 3;

/// The processor time of this thread so far, in nanoseconds.
fn now() -> f64 {
    let mut t = Timespec::default();
    let answer = unsafe { clock_gettime(THREAD_TIME, &mut t) };
    assert_eq!(answer, 0, "no clock of the thread's processor time");
    t.seconds as f64 * 1e9 + t.nanoseconds as f64
}

/// Nanoseconds a call, over calls with the inputs 0, 1, ..
fn slice(calls: usize, call: &mut dyn FnMut(usize)) -> f64 {
    let start = now();
    (0..calls).for_each(&mut *call);
    (now() - start) / calls as f64
}

/// How many calls fill a slice.
fn calls_for(call: &mut dyn FnMut(usize)) -> usize {
    let mut calls = 1;
    loop {
        let each = slice(calls, call);
        if each * calls as f64 >= SLICE_NS / 4.0 {
            return (SLICE_NS / each).ceil() as usize;
        }
        calls *= 2;
    }
}

pub fn median(values: impl Iterator<Item = f64>) -> f64 {
    let mut v: Vec<f64> = values.collect();
    v.sort_by(f64::total_cmp);
    v[v.len() / 2]
}

/// The times of each side, round by round, in nanoseconds a call.
pub fn times(rounds: usize, sides: &mut [&mut dyn FnMut(usize)]) -> Vec<Vec<f64>> {
    let calls: Vec<usize> = sides.iter_mut().map(|s| calls_for(*s)).collect();
    let mut taken = vec![Vec::new(); sides.len()];
    for _ in 0..rounds {
        for (k, side) in sides.iter_mut().enumerate() {
            taken[k].push(slice(calls[k], *side));
        }
    }
    taken
}
