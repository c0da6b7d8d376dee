//! One field alone beside the stand-in writer: every width, edge values, and outputs from none to three bytes.
use crate::cases::FILL;
use crate::entries;
use crate::tally::Tally;
use rust_reference::bits::BitWriter;

const VALUES: [u32; 8] = [0, 1, 2, 0x7fff, 0x8000, 0x5555_5555, 0x8000_0001, u32::MAX];

pub fn run(tally: &mut Tally) {
    for n in 0..=17 {
        for v in VALUES {
            for size in 0..4 {
                one(tally, v, n, size);
            }
        }
    }
}

fn one(tally: &mut Tally, v: u32, n: u32, size: usize) {
    let mut writer = BitWriter::new();
    writer.write_u32(v, n);
    let bytes = writer.bytes();
    let want = if n > 16 {
        2
    } else if size < bytes.len() {
        6
    } else {
        0
    };
    let (mut out, mut expected, mut bits) = (vec![FILL; size], vec![FILL; size], [7u32]);
    if want == 0 {
        expected[..bytes.len()].copy_from_slice(&bytes);
    }
    let answer = entries::write_u32(&mut out, v, n, &mut bits);
    let same = answer == want && out == expected && bits[0] == if want == 0 { n } else { 0 };
    tally.step("short: one field").case(want, same, || format!("{n} bits of {v:#x} in {size} bytes: answer {answer}, {out:?}"));
}
