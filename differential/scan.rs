//! Extraction over every magnitude of a finite f32: where it differs from the Rust's rounded logarithm, by kind, with the least magnitude;
//! and over all bits of an infinity or a NaN.
use crate::entries;
use crate::frames::COMPARED_FRACTION;
use crate::tally::Tally;
use rust_reference::reference as r;
use std::collections::BTreeMap;

/// The magnitudes of one kind of difference: how many, the least, and how far below the next power of two the farthest is.
struct Kind {
    magnitudes: u64,
    least: u32,
    farthest: u32,
}

/// The bit patterns of infinity and of what lies above are not finite.
const FIRST_NOT_FINITE: u32 = 0x7f80_0000;

pub fn run(tally: &mut Tally) {
    finite(tally);
    not_finite(tally);
}

/// All bits of an infinity or a NaN, of both signs: 3 at each.
fn not_finite(tally: &mut Tally) {
    let line = tally.step("scan: extract_exponent, not finite");
    for bits in (FIRST_NOT_FINITE..=0x7fff_ffff).chain(FIRST_NOT_FINITE | 1 << 31..=0xffff_ffff) {
        let mut slot = [7u8];
        let answer = entries::extract_exponent(f32::from_bits(bits), &mut slot);
        line.case(3, (answer, slot[0]) == (3, 0), || format!("{bits:08x}: {answer} {}", slot[0]));
    }
}

fn finite(tally: &mut Tally) {
    let mut kinds: BTreeMap<(u8, u8), Kind> = BTreeMap::new();
    let line = tally.step("scan: extract_exponent, fractions compared");
    for bits in 0..FIRST_NOT_FINITE {
        let (x, fraction) = (f32::from_bits(bits), bits & 0x7f_ffff);
        let mut slot = [7u8];
        let answer = entries::extract_exponent(x, &mut slot);
        let rust = r::r_extract_exponent(x);
        if fraction <= COMPARED_FRACTION {
            line.case(0, (answer, slot[0]) == (0, rust), || format!("{bits:08x}: {answer} {}, the Rust {rust}", slot[0]));
        } else if (answer, slot[0]) != (0, rust) {
            let kind = kinds.entry((slot[0], rust)).or_insert(Kind { magnitudes: 0, least: bits, farthest: 0 });
            kind.magnitudes += 1;
            kind.farthest = kind.farthest.max((1 << 23) - fraction);
        }
    }
    println!("extraction over {FIRST_NOT_FINITE} magnitudes; above fraction 2^23 - 65 these differ:");
    for ((here, rust), k) in &kinds {
        println!(
            "  here {here}, the Rust {rust}: {} magnitudes, the least {:08x}, at most {} units below a power of two",
            k.magnitudes, k.least, k.farthest
        );
    }
    println!("  {} magnitudes in all", kinds.values().map(|k| k.magnitudes).sum::<u64>());
}
