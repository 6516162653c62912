//! Seeded generator of node tables, good and damaged.
use crate::*;

/// SplitMix64.
#[derive(Clone)]
pub struct Rng(pub u64);

impl Rng {
    pub fn next(&mut self) -> u64 {
        self.0 = self.0.wrapping_add(0x9E37_79B9_7F4A_7C15);
        let mut z = self.0;
        z = (z ^ (z >> 30)).wrapping_mul(0xBF58_476D_1CE4_E5B9);
        z = (z ^ (z >> 27)).wrapping_mul(0x94D0_49BB_1331_11EB);
        z ^ (z >> 31)
    }
    pub fn below(&mut self, n: u64) -> u64 { self.next() % n }
    pub fn chance(&mut self, percent: u64) -> bool { self.below(100) < percent }
    pub fn pick<T: Copy>(&mut self, s: &[T]) -> T { s[self.below(s.len() as u64) as usize] }
}

/// Float patterns worth trying: zeros, subnormals, NaNs (quiet, signalling,
/// with payloads), infinities, 2^53 and 2^63 neighbours, and flonums that
/// the published Rust puts in an immediate.
pub const FLOATS: [u64; 24] = [
    0x0000000000000000, 0x8000000000000000, // +-0.0
    0x0000000000000001, 0x800FFFFFFFFFFFFF, // subnormals
    0x0010000000000000,                     // least normal
    0x3FF0000000000000, 0xBFF0000000000000, // +-1
    0x3FB999999999999A, 0x4008000000000000, // 0.1, 3
    0x7FF0000000000000, 0xFFF0000000000000, // infinities
    0x7FF8000000000000, 0xFFF8000000000000, // quiet NaNs
    0x7FF0000000000001, 0x7FFFFFFFFFFFFFFF, // NaNs with payloads
    0x7FEFFFFFFFFFFFFF,                     // greatest finite
    0x4340000000000000, 0x433FFFFFFFFFFFFF, // 2^53, 2^53-1
    0x43E0000000000000, 0xC3E0000000000000, // +-2^63
    0xB7F0000000000000, 0xF7F0000000000000, // -2^-128, -2^896: raw 2 and 6
    0x87EFFFFFFFFFFFFF,                     // raw -2
    0x47F0000000000000,                     // 2^128, boxed by the Rust
];

/// An Int and a Float that are close, or far, where a comparison by rounding
/// or by cutting goes wrong; then 2^k and its neighbours for k = 52 to 63,
/// beside the Floats around 2^k, all of either sign.
pub fn beside() -> Vec<(i64, u64)> {
    const P53: i64 = 1 << 53;
    let mut out = vec![
        (P53 + 1, 0x4340000000000000), (P53, 0x4340000000000000), (P53 + 1, 0x4340000000000001), (-P53 - 1, 0xC340000000000000),
        (i64::MAX, 0x43E0000000000000), (i64::MIN, 0xC3E0000000000000), (i64::MIN, 0xC3E0000000000001), (i64::MAX, 0x43DFFFFFFFFFFFFF),
        (0, 0x8000000000000000), (0, 1), (0, 0x8000000000000001), (1 << 60, 0x3FE0000000000000), (1 << 62, 0x7FF0000000000000),
        (i64::MIN, 0xFFF0000000000000), (i64::MAX, 0x7FF8000000000000), (i64::MIN, 0xFFF0000000000001), (7, 0x7FF0000000000001),
        (-32_768, 0xC0E0000000000000), (32_767, 0x40DFFFE000000000), (5, 0x7FEFFFFFFFFFFFFF), (-5, 0xFFEFFFFFFFFFFFFF)];
    for k in 52..=63u64 {
        let pattern = (1023 + k) << 52;
        for d in [-1i128, 0, 1] {
            for q in [pattern - 1, pattern, pattern + 1] {
                for sign in [1i128, -1] {
                    let n = sign * ((1i128 << k) + d);
                    if let Ok(n) = i64::try_from(n) { out.push((n, if sign < 0 { q | 1 << 63 } else { q })) }
                }
            }
        }
    }
    out
}

/// Exponents whose powers of two are boundaries somewhere in document 01.
const POWERS: [u32; 14] = [0, 1, 6, 15, 16, 31, 32, 37, 39, 53, 60, 61, 62, 63];

/// An Int literal, mostly a boundary.
pub fn int(r: &mut Rng) -> i64 {
    match r.below(10) {
        0..=3 => {
            let p = (1i128 << r.pick(&POWERS)) + r.pick(&[-2i128, -1, 0, 1, 2]);
            let v = if r.chance(50) { p } else { -p };
            v.clamp(i64::MIN as i128, i64::MAX as i128) as i64
        }
        4 => r.pick(&[i64::MIN, i64::MIN + 1, i64::MAX, i64::MAX - 1]),
        5 => mask(r),
        6 | 7 => r.below(70) as i64 - 3,
        8 => r.next() as i16 as i64,
        _ => (r.next() as i64) >> r.below(64),
    }
}

/// One run of ones, sometimes spoiled.
pub fn mask(r: &mut Rng) -> i64 {
    let (lo, len) = (r.below(64), 1 + r.below(63));
    let m = ((1u64 << len) - 1) << lo;
    if r.chance(15) { (m ^ (1 << r.below(64))) as i64 } else { m as i64 }
}

/// How a tree is to look.
#[derive(Clone, Copy)]
pub struct Shape {
    pub nodes: usize,
    pub depth: u64,
    pub base: u64,
    /// Percentage of nodes that keep to the kind of value wanted of them;
    /// 0 gives trees without regard to kinds, 100 mostly runs without 20
    pub typed: u64,
}

#[derive(Clone, Copy, PartialEq)]
enum Want { Any, Num, Int, Bool }

/// Nodes that fit under `depth` levels (three children each), cut off.
fn room(depth: u64) -> usize {
    if depth >= 12 { usize::MAX } else { (3usize.pow(depth as u32) - 1) / 2 }
}

/// A good table of exactly `nodes` nodes and at most `depth` levels.
pub fn tree(r: &mut Rng, s: Shape) -> Vec<u64> {
    assert!(s.nodes >= 1 && s.nodes <= room(s.depth));
    let mut b = Builder::default();
    grow(r, &mut b, s, s.nodes, s.depth, Want::Any);
    b.words
}

/// What a register holds in a typed tree, for whoever makes up locals: every
/// third a Float, every fourth of the rest a Bool, else an Int.
#[derive(Clone, Copy, PartialEq, Debug)]
pub enum Holds { Int, Float, Bool }
pub fn holds(reg: u64) -> Holds {
    if reg % 3 == 2 { Holds::Float } else if reg % 4 == 1 { Holds::Bool } else { Holds::Int }
}

/// A Ref to a register that fits, or a literal.
fn leaf(r: &mut Rng, b: &mut Builder, s: Shape, want: Want) {
    if s.base > 0 && r.chance(45) {
        // the highest register is as interesting as the lowest
        let mut reg = || if r.chance(10) { s.base - 1 } else { r.below(s.base.min(8)) };
        let fits = |reg: u64| s.typed == 0 || match want {
            Want::Any => true,
            Want::Num => holds(reg) != Holds::Bool,
            Want::Int => holds(reg) == Holds::Int,
            Want::Bool => holds(reg) == Holds::Bool,
        };
        for _ in 0..6 {
            let x = reg();
            if fits(x) { b.reg(x); return }
        }
    }
    match want {
        Want::Bool => { b.op(r.pick(&[TRUE, FALSE])); }
        Want::Int => { b.int(int(r)); }
        Want::Num => { if r.chance(70) { b.int(int(r)) } else { b.node(FLOAT, literal(r)) }; }
        Want::Any => match r.below(8) {
            0 => { b.op(NIL); }
            1 => { b.op(r.pick(&[TRUE, FALSE])); }
            2 | 3 => { b.node(FLOAT, literal(r)); }
            _ => { b.int(int(r)); }
        },
    }
}

/// A Float's bits: one worth trying, a small number of eighths, or anything.
pub fn float(r: &mut Rng) -> u64 {
    if r.chance(70) { r.pick(&FLOATS) } else if r.chance(50) { (r.next() as i16 as f64 / 8.0).to_bits() } else { r.next() }
}

/// A Float literal's bits: finite, since any other is damage.
pub fn literal(r: &mut Rng) -> u64 {
    loop { let p = float(r); if f64::from_bits(p).is_finite() { return p } }
}

/// Appends a tree of `n` nodes and at most `depth` levels.
fn grow(r: &mut Rng, b: &mut Builder, s: Shape, n: usize, depth: u64, want: Want) {
    if n == 1 { return leaf(r, b, s, want) }
    let want = if r.chance(s.typed) { want } else { Want::Any };
    let below = room(depth - 1);
    // arities that can still hold n - 1 nodes
    let mut arities = vec![];
    for a in 1..=3usize {
        if n - 1 >= a && (n - 1).div_ceil(a) <= below {
            arities.extend(std::iter::repeat_n(a, [1, 6, 2][a - 1]));
        }
    }
    let a = r.pick(&arities);
    let kind = kind(r, a, want);
    let wants = wants(r, kind, want);
    let mut left = n - 1;
    for c in 0..a {
        let others = a - c - 1;
        let hi = (left - others).min(below);
        let lo = left.saturating_sub(below.saturating_mul(others)).max(1);
        // often a leaf, and often on the right, where constants fold
        let m = if others == 0 { left }
            else if r.chance(25) { lo }
            else if r.chance(35) { hi }
            else { lo + r.below((hi - lo + 1) as u64) as usize };
        left -= m;
        if c == 1 && a == 2 && m == 1 && r.chance(60) {
            // a literal that may fold
            match kind {
                BIT_AND => b.int(mask(r)),
                LSHIFT | RSHIFT => b.int(r.below(67) as i64 - 1),
                _ => b.int(int(r)),
            };
        } else {
            grow(r, b, s, m, depth - 1, wants[c]);
        }
    }
    b.op(kind);
}

/// An operator of so many children that gives what is wanted.
fn kind(r: &mut Rng, arity: usize, want: Want) -> u64 {
    match (arity, want) {
        (1, Want::Bool) => NOT,
        (1, Want::Any) => r.pick(&[MINUS, NOT]),
        (1, _) => MINUS,
        (2, Want::Bool) => EQ + r.below(8),
        (2, Want::Any) => BIT_AND + r.below(18),
        (2, Want::Int) => r.pick(&[8, 9, 10, 11, 12, 13, 14, 15, 17]),
        (2, Want::Num) => BIT_AND + r.below(10),
        _ => TERNARY,
    }
}

/// What an operator wants of its children.
fn wants(r: &mut Rng, kind: u64, want: Want) -> [Want; 3] {
    match kind {
        MINUS => [if want == Want::Int { want } else { Want::Num }; 3],
        NOT | AND | OR => [Want::Bool; 3],
        TERNARY => [Want::Bool, want, want],
        EQ | NE => [r.pick(&[Want::Any, Want::Num, Want::Bool]); 3],
        BIT_AND..=RSHIFT | MOD => [Want::Int; 3],
        _ if want == Want::Int => [Want::Int; 3],
        _ => [Want::Num; 3],
    }
}

/// A good job: sizes 1 to `max_nodes`, small ones most often, depth at most
/// 64, with and without a destination.
pub fn good(r: &mut Rng, max_nodes: usize) -> Job {
    // one in ten: registers, slots and words run out side by side
    let tight = r.chance(10);
    let nodes = match r.below(10) {
        _ if tight => 1 + r.below(7) as usize,
        0..=4 => 1 + r.below(12) as usize,
        5..=7 => 1 + r.below(80) as usize,
        8 => 1 + r.below(600) as usize,
        _ => 1 + r.below(max_nodes as u64) as usize,
    }.min(max_nodes);
    let mut least = 1;
    while room(least) < nodes { least += 1 }
    let depth = if r.chance(30) { MAX_DEPTH } else { least + r.below(MAX_DEPTH - least + 1) };
    let base = match r.below(20) {
        _ if tight => MAX_REGS - r.below(4),
        0 => 0,
        _ => 1 + r.below(6),
    };
    let typed = r.pick(&[0, 80, 97, 100]);
    let table = tree(r, Shape { nodes, depth, base, typed });
    let params = r.below(base + 1);
    let dst = if base > 0 && r.chance(40) { Some(r.below(base)) } else { None };
    let (mut max_words, mut max_slots) = (usize::MAX, usize::MAX);
    if tight && r.chance(60) { max_words = r.below(4) as usize }
    if tight && r.chance(60) { max_slots = r.below(2) as usize }
    if !tight && r.chance(10) { max_words = r.below(2 * nodes as u64 + 2) as usize }
    if !tight && r.chance(10) { max_slots = r.below(1 + nodes as u64 / 4) as usize }
    Job { table, params, locals: base - params, dst, max_words, max_slots }
}

/// One thing wrong with a good job, most often. The check says what.
pub fn damage(r: &mut Rng, job: &Job) -> Job {
    let mut j = job.clone();
    let n = j.table.len() / 4;
    let at = 4 * r.below(n as u64) as usize;
    match r.below(18) {
        0 => j.table.clear(),
        1 => { let k = j.table.len() - 1 - r.below(3) as usize; j.table.truncate(k) }
        2 => j.table[at] = 27 + r.below(4),
        3 => j.table[at] = r.next(),
        4 => j.table[at] = r.below(27),
        5 => j.table[at + 1] ^= 1 << r.below(64),
        6 => j.table[at + 1] = r.below(9),
        7 => j.table[at + 2] = r.pick(&[0, at as u64 / 4, at as u64 / 4 + 1, u64::MAX]),
        8 => j.table[at + 2] = j.table[at + 2].wrapping_add(r.pick(&[1, u64::MAX])),
        9 => j.table[at + 3] = j.table[at + 3].wrapping_add(r.pick(&[1, u64::MAX])),
        10 => j.table[at + 3] = r.pick(&[0, 1, MAX_DEPTH, MAX_DEPTH + 1, u64::MAX]),
        11 => { j.table.drain(at..at + 4); }
        12 => { let four = [r.below(6), 0, n as u64, 1]; j.table.extend(four) }
        13 => { j.params = 0; j.locals = r.below(3) }
        14 => {
            // one level too many, or just not
            let depth = *j.table.last().unwrap();
            let mut b = Builder { words: j.table };
            for _ in depth..MAX_DEPTH + r.below(3) { b.op(r.pick(&[MINUS, NOT])); }
            j.table = b.words
        }
        15 => {
            // a Float that is not finite in place of a leaf
            let leaf = (0..n).map(|i| 4 * i).filter(|i| arity(j.table[*i]) == Some(0)).last().unwrap_or(at);
            j.table[leaf] = FLOAT;
            j.table[leaf + 1] = r.pick(&FLOATS[9..15]);
        }
        16 => j.dst = Some(r.pick(&[j.base(), j.base() + 1, 65_535, 65_536, 1 << 32, u64::MAX - 1])),
        _ => { j.params = r.pick(&[65_535, 65_536, 32_768, 1 << 32]); j.locals = r.pick(&[0, 1, 32_767, 32_768, 1 << 32]) }
    }
    j
}
