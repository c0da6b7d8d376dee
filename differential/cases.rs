//! The oracle's cases, chosen and random: each entry is called on a case's inputs, and answer, counts and every buffer are compared whole. The
//! program is run on its cases, and what it prints is compared.
use crate::entries;
use crate::program;
use crate::tally::Tally;
use rust_reference::cases::{Case, F};
use rust_reference::gen;
use rust_reference::gen_requests;
use rust_reference::rng::Rng;

/// What every output slice holds before a call (the oracle's FORMAT.md).
pub const FILL: u8 = 0xa5;
pub const FILL_CODE: u16 = 0xa5a5;
pub const FILL_LEVEL: f32 = f32::from_bits(0xa5a5_a5a5);

#[rustfmt::skip]
pub const STEPS: [&str; 20] = [
    "sheet", "extract", "preprocess", "quantise", "write_exponents", "read_exponents", "pick", "select", "allocate", "allocate_sheet",
    "quantise_mantissa", "write_mantissas", "read_mantissas", "count", "encode", "write_frame", "read_frame", "program",
    "reconstruct", "reconstruct_body",
];

/// The inputs of a case by name.
struct Inputs<'a>(&'a Case);

impl Inputs<'_> {
    fn field(&self, name: &str) -> &F {
        &self.0.ins.iter().find(|(n, _)| *n == name).unwrap_or_else(|| panic!("no input {name}")).1
    }
    fn number(&self, name: &str) -> usize {
        match self.field(name) {
            F::N(n) => *n as usize,
            _ => panic!("{name} is no number"),
        }
    }
    fn bytes(&self, name: &str) -> &[u8] {
        match self.field(name) {
            F::U8(v) => v,
            _ => panic!("{name} is no bytes"),
        }
    }
    fn words(&self, name: &str) -> &[u32] {
        match self.field(name) {
            F::U32(v) => v,
            _ => panic!("{name} is no words"),
        }
    }
    /// Codes as the entries take them; none where one is beyond 16 bits.
    fn codes(&self, name: &str) -> Option<Vec<u16>> {
        self.words(name).iter().map(|&c| u16::try_from(c).ok()).collect()
    }
    fn floats(&self, name: &str) -> Vec<f32> {
        match self.field(name) {
            F::F32(v) => v.iter().map(|&b| f32::from_bits(b)).collect(),
            _ => panic!("{name} is no floats"),
        }
    }
}

/// What an entry gave: its answer and its outputs, as the case has them.
type Given = (u32, Vec<(&'static str, F)>);

fn words_of(v: &[u16]) -> F {
    F::U32(v.iter().map(|&c| c as u32).collect())
}

/// The bit patterns of floats: what is compared, so that -0 is not 0.
pub fn bits_of(v: &[f32]) -> Vec<u32> {
    v.iter().map(|x| x.to_bits()).collect()
}

/// A sheet that gives one channel these parameters; the LFE's end stands beside a full channel.
pub fn sheet_for(p: &[u8], segs: &[u8], end: usize) -> Option<(Vec<u8>, u32)> {
    let lfe = end == 7;
    if end > 255 || (lfe && !segs.is_empty()) {
        return None; // no sheet says that
    }
    let record = |channel: u8, end: u8, segs: &[u8]| {
        let mut r = vec![channel, end, 1, 0, 0, 0, 0, 0, p[7], p[8], (segs.len() / 3) as u8];
        r.extend_from_slice(segs);
        r
    };
    let mut s = vec![0, 0, 1, p[0], 1, lfe as u8, p[1], p[2], p[3], p[4], p[5], p[6]];
    if lfe {
        s.extend(record(0, 37, &[]));
    }
    s.extend(record(lfe as u8, end as u8, segs));
    let length = s.len() - 2;
    s[0] = (length >> 8) as u8;
    s[1] = length as u8;
    Some((s, lfe as u32))
}

/// Calls the entry of a step, or runs the program; none where the case can't be said through the entry.
fn call(step: &str, c: &Inputs) -> Option<Given> {
    match step {
        "sheet" => Some((entries::check_sheet(c.bytes("sheet")), vec![])),
        "extract" | "preprocess" | "quantise" | "pick" | "select" => Some(call_shaping(step, c)),
        "write_exponents" | "read_exponents" => Some(call_exponents(step, c)),
        "allocate" => call_allocation(c),
        "allocate_sheet" => Some(call_allocation_under(c.bytes("sheet"), c.number("channel") as u32, c)),
        "quantise_mantissa" | "write_mantissas" | "read_mantissas" | "count" => call_mantissas(step, c),
        "program" => Some(run_program(c.bytes("stdin"))),
        "reconstruct" | "reconstruct_body" => call_reconstruction(step, c),
        _ => call_frame(step, c),
    }
}

fn call_shaping(step: &str, c: &Inputs) -> Given {
    let mut one = [7u8];
    match step {
        "extract" => {
            let k = entries::extract_exponent(c.floats("x")[0], &mut one);
            (k, vec![("exponent", F::N(one[0] as u64))])
        }
        "preprocess" => {
            let mut e = c.bytes("exp").to_vec();
            let k = entries::preprocess_d15(&mut e);
            (k, vec![("exp", F::U8(e))])
        }
        "quantise" => {
            let mut e = c.bytes("exp").to_vec();
            let k = entries::quantise_exponents_to_grpsize(&mut e, c.number("span"));
            (k, vec![("exp", F::U8(e))])
        }
        "pick" => {
            let k = entries::pick_strategy_for_block(c.bytes("exp"), c.number("end"), &mut one);
            (k, vec![("strategy", F::N(one[0] as u64))])
        }
        _ => {
            let ends: Vec<u16> = c.words("ends").iter().map(|&e| e.min(65535) as u16).collect();
            let mut s = vec![7u8; 6 * ends.len()];
            let k = entries::select_exp_strategies_per_end(c.bytes("exps"), &ends, &mut s);
            if k != 0 {
                assert!(s.iter().all(|&b| b == 0), "a refused selection leaves strategies");
                s.clear();
            }
            (k, vec![("strategies", F::U8(s))])
        }
    }
}

fn call_exponents(step: &str, c: &Inputs) -> Given {
    let mut bits = [7u32];
    if step == "write_exponents" {
        let mut out = vec![FILL; c.number("outlen")];
        let k = entries::write_exponents_grouped(&mut out, c.bytes("exp"), c.number("end"), c.number("span"), &mut bits);
        return (k, vec![("bits", F::N(bits[0] as u64)), ("out", F::U8(out))]);
    }
    let mut e = vec![FILL; c.number("explen")];
    let k = entries::read_exponents_grouped(c.bytes("src"), &mut e, c.number("end"), c.number("span"), &mut bits);
    (k, vec![("bits", F::N(bits[0] as u64)), ("exp", F::U8(e))])
}

fn call_allocation(c: &Inputs) -> Option<Given> {
    let (sheet, channel) = sheet_for(c.bytes("params"), c.bytes("segs"), c.number("end"))?;
    Some(call_allocation_under(&sheet, channel, c))
}

fn call_allocation_under(sheet: &[u8], channel: u32, c: &Inputs) -> Given {
    let mut bap = vec![FILL; c.number("baplen")];
    let k = entries::compute_bap(sheet, channel, c.bytes("exp"), &mut bap);
    (k, vec![("bap", F::U8(bap))])
}

fn call_mantissas(step: &str, c: &Inputs) -> Option<Given> {
    let mut bits = [7u32];
    match step {
        "quantise_mantissa" => {
            let mut code = [7u16];
            let k = entries::quantise_mantissa(c.floats("x")[0], c.number("exponent") as u32, c.number("bap") as u32, &mut code);
            Some((k, vec![("code", F::N(code[0] as u64))]))
        }
        "write_mantissas" => {
            let mut out = vec![FILL; c.number("outlen")];
            let k = entries::write_mantissa_stream(&mut out, c.bytes("bap"), &c.codes("code")?, &mut bits);
            Some((k, vec![("bits", F::N(bits[0] as u64)), ("out", F::U8(out))]))
        }
        "read_mantissas" => {
            let mut codes = vec![FILL_CODE; c.number("codelen")];
            let k = entries::read_mantissa_stream(c.bytes("src"), c.bytes("bap"), &mut codes, &mut bits);
            Some((k, vec![("bits", F::N(bits[0] as u64)), ("code", words_of(&codes))]))
        }
        _ => {
            let mut counts = vec![7u32; 6];
            let k = entries::mantissa_bits_total_ends(c.bytes("sheet"), c.bytes("bap"), &mut counts);
            Some((k, vec![("counts", F::U32(counts))]))
        }
    }
}

fn call_frame(step: &str, c: &Inputs) -> Option<Given> {
    let s = c.bytes("sheet");
    let mut counts = vec![7u32; 12];
    match step {
        "encode" => {
            let (mut e, mut bap) = (vec![FILL; c.number("explen")], vec![FILL; c.number("baplen")]);
            let (mut codes, mut out) = (vec![FILL_CODE; c.number("codelen")], vec![FILL; c.number("outlen")]);
            let k = entries::encode_body(s, &c.floats("coeff"), &mut e, &mut bap, &mut codes, &mut out, &mut counts);
            Some((
                k,
                vec![("counts", F::U32(counts)), ("exp", F::U8(e)), ("bap", F::U8(bap)), ("code", words_of(&codes)), ("out", F::U8(out))],
            ))
        }
        "write_frame" => {
            let mut out = vec![FILL; c.number("outlen")];
            let k = entries::write_body(s, c.bytes("exp"), &c.codes("code")?, &mut out, &mut counts);
            Some((k, vec![("counts", F::U32(counts)), ("out", F::U8(out))]))
        }
        "read_frame" => {
            let (mut e, mut bap) = (vec![FILL; c.number("explen")], vec![FILL; c.number("explen")]);
            let (mut codes, mut bits) = (vec![FILL_CODE; c.number("codelen")], [7u32]);
            let k = entries::read_body(s, c.bytes("src"), &mut e, &mut bap, &mut codes, &mut counts, &mut bits);
            assert_eq!(bits[0], counts.iter().sum::<u32>(), "the bits read are the sum of the counts");
            Some((k, vec![("bits", F::N(bits[0] as u64)), ("exp", F::U8(e)), ("code", words_of(&codes))]))
        }
        _ => panic!("no such step: {step}"),
    }
}

fn call_reconstruction(step: &str, c: &Inputs) -> Option<Given> {
    let (mut has, mut level) = (vec![FILL; c.number("haslen")], vec![FILL_LEVEL; c.number("levellen")]);
    let k = if step == "reconstruct" {
        let word = |name| c.number(name) as u32;
        entries::reconstruct_mantissa(word("exponent"), word("bap"), word("code"), &mut has, &mut level)
    } else {
        entries::reconstruct_body(c.bytes("sheet"), c.bytes("exp"), &c.codes("code")?, &mut has, &mut level)
    };
    Some((k, vec![("has", F::U8(has)), ("level", F::F32(bits_of(&level)))]))
}

fn run_program(input: &[u8]) -> Given {
    let printed = program::printed(input);
    (program::refusal(&printed), vec![("stdout", F::U8(printed))])
}

/// Two outputs are the same. A code is 16 bits wide here and 32 in the oracle; counts are compared whole.
fn same(name: &str, a: &F, b: &F) -> bool {
    match (a, b) {
        (F::N(x), F::N(y)) => x == y,
        (F::U8(x), F::U8(y)) => x == y,
        (F::F32(x), F::F32(y)) => x == y,
        (F::U32(x), F::U32(y)) if name == "counts" => x == y,
        (F::U32(x), F::U32(y)) => x.len() == y.len() && x.iter().zip(y).all(|(p, q)| p & 0xffff == q & 0xffff),
        _ => false,
    }
}

/// What differs between an entry and the oracle, in words.
fn difference(case: &Case, given: &Given) -> Option<String> {
    if given.0 != case.k as u32 {
        return Some(format!("answers {}, the oracle {}", given.0, case.k));
    }
    for (name, f) in &given.1 {
        let want = &case.outs.iter().find(|(n, _)| n == name).unwrap_or_else(|| panic!("no output {name}")).1;
        if !same(name, f, want) {
            return Some(format!("differs in {name}:\n  here   {f:?}\n  oracle {want:?}"));
        }
    }
    None
}

/// Whether the oracle keeps a step among those that document 02 adds.
fn added(step: &str) -> bool {
    gen_requests::steps().contains(&step)
}

fn chosen_cases(step: &str, seed: u64) -> Vec<Case> {
    if added(step) {
        gen_requests::sharp(step, seed)
    } else {
        gen::sharp(step, seed)
    }
}

fn random_case(step: &str, g: &mut Rng) -> Case {
    if added(step) {
        gen_requests::random(step, g)
    } else {
        gen::random(step, g)
    }
}

/// The chosen cases of a step and `count` random ones. A case that no entry can be handed (a code beyond 16 bits, parameters that no
/// sheet says) is left out and counted.
pub fn run(tally: &mut Tally, step: &str, count: u64, seed: u64) {
    let mut g = Rng::new(seed);
    let line = tally.step(&format!("cases: {step}"));
    let mut unsaid = 0u64;
    let mut chosen = chosen_cases(step, seed).into_iter();
    let total = chosen.len() as u64 + count;
    for _ in 0..total {
        let case = chosen.next().unwrap_or_else(|| random_case(step, &mut g));
        match call(step, &Inputs(&case)) {
            None => unsaid += 1,
            Some(given) => {
                let found = difference(&case, &given);
                line.case(case.k as u32, found.is_none(), || {
                    format!("{step}, {}: {}\n  inputs {:?}", case.tag, found.as_deref().unwrap_or(""), case.ins)
                });
            }
        }
    }
    println!("{step}: {total} cases, of which {unsaid} that the entry cannot be handed");
}
