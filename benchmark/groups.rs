//! The number of groups. A call takes two nanoseconds, and where in a line of the cache its code and the calling loop stand moves that by up to a
//! third. So both sides are called from loops at four places, and the Rust's function stands at four; the archive's stands once in a binary,
//! and AC3_LAYOUT moves it.
use crate::entries;
use crate::line;
use crate::steps::keep;
use crate::timing::times;
use std::arch::asm;
use std::hint::black_box;

/// 257 calls, one for each end, from a loop that stands so many bytes behind one place of a line of the cache. The loops of different targets
/// differ by their comment, else the compiler would make one of them, whose pointer the processor could not foretell.
#[inline(never)]
fn from_place<const BYTES: usize, const TARGET: usize>(mut call: impl FnMut(usize, usize)) {
    // passed once for all the calls
    unsafe {
        asm!(".p2align 6", "jmp 2f", ".skip {bytes}", "2: # {target}", bytes = const BYTES, target = const TARGET,
             options(nomem, nostack, preserves_flags))
    };
    (0..=256).for_each(|end| call(end, 1 << (end % 3)));
}

/// The calls from four places, each a loop of its own.
macro_rules! from_four_places {
    ($target:literal, $call:expr) => {
        from_place::<0, $target>($call);
        from_place::<16, $target>($call);
        from_place::<32, $target>($call);
        from_place::<48, $target>($call);
    };
}

/// The Rust's function so many bytes behind the start of a line of the cache: in sections that begin with a line and those bytes.
macro_rules! rust_at {
    ($place:ident, $bytes:literal, $plain:literal, $answering:literal) => {
        mod $place {
            use super::from_place;
            use crate::source::packed::ngrps_for_strategy;
            use crate::steps::keep;
            use std::arch::global_asm;
            use std::hint::black_box;

            global_asm!(concat!(".section ", $plain, ",\"ax\",@progbits\n.p2align 6\n.skip ", $bytes, "\n.text"));
            global_asm!(concat!(".section ", $answering, ",\"ax\",@progbits\n.p2align 6\n.skip ", $bytes, "\n.text"));

            #[inline(never)]
            #[link_section = $plain]
            pub fn groups(end: usize, span: usize, slot: &mut [u32]) {
                slot[0] = ngrps_for_strategy(end, span) as u32
            }

            /// The same, with a number answered as every entry of the port does.
            #[inline(never)]
            #[link_section = $answering]
            pub fn groups_answered(end: usize, span: usize, slot: &mut [u32]) -> u32 {
                slot[0] = ngrps_for_strategy(end, span) as u32;
                0
            }

            pub fn called_directly(slot: &mut [u32; 1]) {
                from_four_places!($bytes, |end, span| groups(end, span, black_box(slot)));
            }

            /// As an entry of the archive is.
            pub fn called_alike(slot: &mut [u32; 1]) {
                let call: fn(usize, usize, &mut [u32]) -> u32 = black_box(groups_answered);
                from_four_places!($bytes, |end, span| keep(call(end, span, black_box(slot))));
            }
        }
    };
}

rust_at!(at_0, 0, ".text.groups_at_0", ".text.groups_answered_at_0");
rust_at!(at_16, 16, ".text.groups_at_16", ".text.groups_answered_at_16");
rust_at!(at_32, 32, ".text.groups_at_32", ".text.groups_answered_at_32");
rust_at!(at_48, 48, ".text.groups_at_48", ".text.groups_answered_at_48");

const DIRECTLY: [fn(&mut [u32; 1]); 4] = [at_0::called_directly, at_16::called_directly, at_32::called_directly, at_48::called_directly];
const ALIKE: [fn(&mut [u32; 1]); 4] = [at_0::called_alike, at_16::called_alike, at_32::called_alike, at_48::called_alike];

fn entry(slot: &mut [u32; 1]) {
    from_four_places!(64, |end, span| keep(entries::ngrps_for_strategy(end, span, black_box(slot))));
}

/// Says so where a compiler or linker has put the functions elsewhere.
fn check_places() {
    let plain: [fn(usize, usize, &mut [u32]); 4] = [at_0::groups, at_16::groups, at_32::groups, at_48::groups];
    let answering: [fn(usize, usize, &mut [u32]) -> u32; 4] =
        [at_0::groups_answered, at_16::groups_answered, at_32::groups_answered, at_48::groups_answered];
    for places in [plain.map(|f| f as usize % 64), answering.map(|f| f as usize % 64)] {
        if places != [0, 16, 32, 48] {
            eprintln!("the Rust's number of groups stands at {places:?} of a line of the cache, not at 0, 16, 32 and 48");
        }
    }
}

/// The Rust called directly, as in the other steps; and as an entry is, through a pointer and with a number answered.
pub fn run(rounds: usize) {
    check_places();
    let (mut a, mut b, mut c) = ([0u32], [0u32], [0u32]);
    let taken = times(rounds, &mut [&mut |_| entry(&mut a), &mut |i| DIRECTLY[i % 4](&mut b), &mut |i| ALIKE[i % 4](&mut c)]);
    line("ngrps_for_strategy", "4 x 257 calls", &taken[..2]);
    line("ngrps_for_strategy, the Rust called as the entry is", "4 x 257 calls", &[taken[0].clone(), taken[2].clone()]);
}
