//! Operators on values, from the compiler's own f64 and checked i64.
//! Record: node kind, then kind and payload of both operands (the second is
//! Nil for Minus and Not). Answer: number, kind, payload; zeros on a fault.
use crate::Pair;
use tables::gen::{self, Rng};
use tables::meaning::{operator, V};
use tables::*;

type Lent = (u8, u64);

fn int(n: i64) -> Lent { (2, n as u64) }
fn float(x: f64) -> Lent { (3, x.to_bits()) }

/// Operands that every operator meets with every other.
fn common() -> Vec<Lent> {
    let ints = [0, 1, -1, 2, -7, 63, 64, 32_768, 1 << 53, (1 << 53) + 1, -(1 << 53), -(1 << 53) - 1, i64::MAX, i64::MIN];
    let floats = [0, 1 << 63, 1, 0x800F_FFFF_FFFF_FFFF, 0x3FF0_0000_0000_0000, 0xC01C_0000_0000_0000, 0x4340_0000_0000_0000, 0x43E0_0000_0000_0000,
                  0x7FEF_FFFF_FFFF_FFFF, 0x7FF0_0000_0000_0000, 0xFFF0_0000_0000_0000, 0x7FF8_0000_0000_0000, 0x7FF0_0000_0000_0001];
    let mut out = vec![(0, 0), (1, 0), (1, 1)];
    out.extend(ints.map(int));
    out.extend(floats.map(|f: u64| (3, f)));
    out
}

/// Pairs that are no values.
const ILL: [Lent; 8] = [(0, 1), (0, 1 << 63), (1, 2), (1, u64::MAX), (4, 0), (5, 1), (128, 0), (255, u64::MAX)];

/// Two Floats whose sum, difference, product or quotient lies half way
/// between two neighbours, or just beside it, or at an end of the range.
fn halves(r: &mut Rng, kind: u64) -> (f64, f64) {
    let odd = |r: &mut Rng, bits: u32| (1u64 << (bits - 1) | r.next() >> (65 - bits) | 1) as f64;
    let power = |e: i64| if e >= -1022 { f64::from_bits(((e + 1023) as u64) << 52) } else { f64::from_bits(1 << (e + 1074)) };
    let sign = |r: &mut Rng| if r.chance(50) { 1.0 } else { -1.0 };
    let beside = |r: &mut Rng, x: f64| if r.chance(60) { x } else { f64::from_bits(x.to_bits().wrapping_add(r.pick(&[1, u64::MAX]))) };
    let bits = r.pick(&[2, 3, 11, 52]);
    let small = odd(r, bits);
    let (a, b) = match (kind, r.below(4)) {
        // half a unit in the last place, added or taken away; the greatest exponent overflows
        (ADD | SUB, 0..=2) => {
            let e = if r.chance(20) { 1023 } else { r.below(1990) as i64 - 968 };
            let mut a = f64::from_bits(((e + 1023) as u64) << 52 | r.next() >> 12);
            if e == 1023 { a = f64::MAX }
            (a, power(e - 53))
        }
        // next to the subnormals
        (ADD | SUB, _) => (f64::from_bits(r.next() >> 11), f64::from_bits(r.next() >> 10)),
        // two odd numbers of 27 bits: 54 bits, the last one set, or 53
        (MUL, 0) => (odd(r, 27) * power(r.below(300) as i64 - 150), odd(r, 27)),
        // the last bits fall off below 2^-1074
        (MUL, 1) => (small * power(-1074), power(-1 - r.below(3) as i64)),
        (MUL, 2) => (odd(r, 53) * power(-600), odd(r, 53) * power(-526 - r.below(8) as i64)),
        (MUL, _) => (f64::MAX * power(-(r.below(2) as i64)), f64::from_bits(0x3FF0_0000_0000_0000 + r.below(3)) * power(r.below(2) as i64)),
        (_, 0) => (small * power(-1074), power(1 + r.below(3) as i64)),
        (_, 1) => (odd(r, 53) * power(-526 - r.below(8) as i64 - 53), odd(r, 53) * power(496)),
        (_, 2) => (r.below(50) as f64, r.below(50) as f64),
        _ => (f64::MAX, f64::from_bits(0x3FF0_0000_0000_0000 - r.below(3))),
    };
    (sign(r) * beside(r, a), sign(r) * beside(r, b))
}

/// Two Ints at an edge of the kind of operator.
fn ints(r: &mut Rng, kind: u64) -> (i64, i64) {
    let a = gen::int(r);
    let near = |r: &mut Rng, x: i64| x.wrapping_add(r.below(5) as i64 - 2);
    let b = match kind {
        // next to the greatest and the least sum, difference and product
        ADD if r.chance(60) => near(r, if a > 0 { i64::MAX - a } else { i64::MIN - a }),
        SUB if r.chance(60) => near(r, if a < 0 { a.wrapping_sub(i64::MAX) } else { a.wrapping_sub(i64::MIN) }),
        MUL if a != 0 && r.chance(60) => { let end = r.pick(&[i64::MAX, i64::MIN]); near(r, end.wrapping_div(a)) }
        LSHIFT if r.chance(60) => near(r, a.unsigned_abs().leading_zeros() as i64),
        LSHIFT | RSHIFT if r.chance(80) => r.below(68) as i64 - 2,
        MOD if r.chance(70) => r.pick(&[-3, -1, 0, 1, 2, 7, i64::MIN, i64::MAX]),
        EQ..=GE if r.chance(50) => near(r, a),
        _ => gen::int(r),
    };
    (a, b)
}

/// A Float next to an Int.
fn neighbour(r: &mut Rng, n: i64) -> u64 {
    let bits = (n as f64).to_bits();
    if r.chance(50) { bits } else { bits.wrapping_add(r.pick(&[1, u64::MAX])) }
}

pub fn make() -> Pair {
    let mut r = Rng(2);
    let mut out = Pair::default();
    let mut one = |kind: u64, a: Lent, b: Lent| {
        let answer = match (V::from_pair(a), V::from_pair(b)) { (Some(x), Some(y)) => operator(kind, x, y), _ => Err(29) };
        out.record(&[kind, a.0 as u64, a.1, b.0 as u64, b.1]);
        out.meet(format!("{kind}: {}", answer.err().unwrap_or(0)));
        match answer {
            Ok(v) => {
                let (k, p) = v.pair();
                if let V::Float(x) = v { out.meet(format!("{:?}{}", x.classify(), if x.is_sign_negative() { " below" } else { "" })) }
                out.answer(&[0, k as u64, p])
            }
            Err(n) => out.answer(&[n as u64, 0, 0]),
        }
    };
    let common = common();
    for kind in MINUS..=GE {
        let unary = kind <= NOT;
        for a in &common {
            for b in &common { if !unary || *b == (0, 0) { one(kind, *a, *b) } }
        }
        for ill in ILL {
            let well = r.pick(&common);
            one(kind, ill, if unary { (0, 0) } else { well });
            if !unary { one(kind, well, ill); one(kind, ill, r.pick(&ILL)) }
        }
        for _ in 0..400 {
            let (a, b) = ints(&mut r, kind);
            one(kind, int(a), if unary { (0, 0) } else { int(b) });
            if !matches!(kind, ADD..=DIV | EQ..=GE | MINUS) || r.chance(40) { continue }
            // Int with Float, Float with Float
            let (f, n) = ((3, neighbour(&mut r, a)), int(if r.chance(50) { b } else { a }));
            let g = (3, if r.chance(50) { gen::float(&mut r) } else { r.next() });
            if unary { one(kind, f, (0, 0)); one(kind, g, (0, 0)) }
            else if r.chance(50) { one(kind, n, f); one(kind, f, g) }
            else { one(kind, f, n); one(kind, g, f) }
        }
        if matches!(kind, ADD..=DIV) {
            for _ in 0..1_500 { let (a, b) = halves(&mut r, kind); one(kind, float(a), float(b)) }
        }
    }
    for (n, q) in gen::beside() {
        for kind in EQ..=GE { one(kind, int(n), (3, q)); one(kind, (3, q), int(n)) }
    }
    let numbers: [(std::ops::RangeInclusive<u64>, &[u8]); 10] = [
        (MINUS..=MINUS, &[0, 20, 21, 29]), (NOT..=NOT, &[0, 20, 29]), (BIT_AND..=10, &[0, 20, 29]), (LSHIFT..=LSHIFT, &[0, 20, 21, 24, 29]),
        (RSHIFT..=RSHIFT, &[0, 20, 24, 29]), (ADD..=MUL, &[0, 20, 21, 23, 29]), (DIV..=DIV, &[0, 20, 23, 29]), (MOD..=MOD, &[0, 20, 22, 29]),
        (EQ..=NE, &[0, 29]), (LT..=GE, &[0, 20, 29])];
    for (kinds, numbers) in numbers { for k in kinds { for n in numbers { out.must_meet(&format!("{k}: {n}")) } } }
    for class in ["Nan", "Infinite", "Infinite below", "Zero", "Zero below", "Subnormal", "Subnormal below", "Normal", "Normal below"] { out.must_meet(class) }
    out
}
