//! Constructors, decoding and patching of instruction words.
//! Record: eight numbers, job 0 construct: opcode, operands; job 1 decode:
//! word; job 2 patch: words in use, position, target, the four words.
//! Answer: eight numbers, construct: number, word; decode: number, opcode,
//! operands; patch: number, the four words.
use crate::Pair;
use house::words::{construct, decode, patch};
use std::collections::BTreeSet;
use tables::gen::Rng;
use tables::opcodes::{self, extend, pack, Kind::{self, *}, OPCODES};

/// Eight numbers, zeros after those given.
fn eight(v: &[u64]) -> [u64; 8] {
    let mut out = [0; 8];
    out[..v.len()].copy_from_slice(v);
    out
}

/// Operands at the edges of each kind of field and of its Rust type.
fn edges(kind: Kind) -> Vec<i64> {
    let (b, h, d) = (1i64 << 39, 1i64 << 23, i32::MAX as i64);
    match kind {
        Reg | OutReg | U16 => vec![0, 1, 255, 256, 32_767, 32_768, 65_534, 65_535],
        U6 => vec![0, 1, 31, 32, 62, 63, 64, 65, 128, 255],
        U8 => vec![0, 1, 127, 128, 254, 255],
        U12 => vec![0, 1, 2_047, 2_048, 4_094, 4_095, 4_096, 4_097, 65_535],
        U24 => vec![0, 1, h - 1, h, 2 * h - 2, 2 * h - 1, 2 * h, 2 * h + 1, u32::MAX as i64],
        U32 => vec![0, 1, 65_535, 65_536, d, d + 1, u32::MAX as i64],
        I16 => vec![-32_768, -32_767, -1, 0, 1, 5, 32_766, 32_767],
        // raws of values, of none, and at both ends of the field
        I40 => vec![0, 4, -4, 1, 5, 9, 2, 3, 6, 7, 8, 10, 11, 13, 21, 29, -1, -2, -3, -5, 131_072, b - 4, b - 1, b, b + 4,
                      -b, -b + 1, -b - 1, -b - 4, (1 << 40) + 1, (1 << 40) + 4, 1 << 62, i64::MIN, i64::MIN + 1, i64::MAX],
        Disp24 => vec![0, 1, -1, h - 1, h, -h, -h - 1, d, -d - 1],
        Disp32 => vec![0, 1, -1, h, -h - 1, d - 1, d, -d, -d - 1],
    }
}

/// An operand that fits its field and is a value's raw where one is wanted.
fn fitting(r: &mut Rng, f: Kind) -> i64 {
    let v = extend(f, r.next());
    if f == I40 { v & !3 } else { v }
}

/// Operands that fit, for each field.
fn all_fitting(r: &mut Rng, op: usize) -> Vec<i64> { OPCODES[op].1.iter().map(|f| fitting(r, *f)).collect() }

/// Bits that an opcode's word uses.
fn used_bits(op: usize) -> u32 { 8 + OPCODES[op].1.iter().map(|f| f.width()).sum::<u32>() }

pub fn make() -> Pair {
    let mut r = Rng(1);
    let mut o = house::Oracle::new();
    let mut out = Pair::default();
    let mut words = vec![];
    for op in 0..OPCODES.len() { constructs(&mut r, op, &mut out, &mut words) }
    decodes(&mut r, &words, &mut out);
    patches(&mut r, &words, &mut o, &mut out);
    for answer in ["construct 0", "construct 9", "decode 0", "decode 10", "patch 0", "patch 8", "patch 10", "patch 11", "patch 12"] { out.must_meet(answer) }
    out
}

fn constructs(r: &mut Rng, op: usize, out: &mut Pair, words: &mut Vec<u64>) {
    let fields = OPCODES[op].1;
    let mut tries: Vec<Vec<i64>> = vec![fields.iter().map(|f| edges(*f)[0]).collect()];
    for i in 0..fields.len() {
        for edge in edges(fields[i]) {
            let mut v = all_fitting(r, op);
            v[i] = edge;
            tries.push(v);
        }
    }
    for _ in 0..8 { tries.push(fields.iter().map(|f| r.pick(&edges(*f))).collect()) }
    for v in tries {
        let answer = construct(op, &v);
        // the table of fields, which knows nothing of the macros, says the same
        let again = pack(op, &v, false).filter(|w| opcodes::decode(*w).is_some()).ok_or(9);
        assert_eq!(answer, again, "{} {v:?}", OPCODES[op].0);
        let operands: Vec<u64> = v.iter().map(|x| *x as u64).collect();
        out.record(&eight(&[&[0, op as u64], &operands[..]].concat()));
        out.meet(format!("construct {}", answer.err().unwrap_or(0)));
        match answer {
            Ok(w) => { words.push(w); out.answer(&eight(&[0, w])) }
            Err(n) => out.answer(&eight(&[n as u64])),
        }
    }
}

fn decodes(r: &mut Rng, words: &[u64], out: &mut Pair) {
    let mut tries = words.to_vec();
    // each single bit above the used ones, on one word of each form
    for op in 0..OPCODES.len() {
        let used = used_bits(op);
        let word = pack(op, &all_fitting(r, op), false).unwrap();
        for bit in used..64 { tries.push(word | 1 << bit) }
        if used < 64 { tries.push(word | u64::MAX << used) }
    }
    for op in 77..256 { tries.extend([op, op | r.next() << 8]) }
    // raws of no value, and every small raw, in both words that carry one
    for raw in edges(I40).into_iter().chain(-40..40) {
        for (op, v) in [(3, vec![7, raw]), (76, vec![raw])] { tries.extend(pack(op, &v, false)) }
    }
    for _ in 0..300 { tries.extend([r.next(), (r.next() << 8) | r.below(77)]) }
    let unique: BTreeSet<u64> = tries.iter().copied().collect();
    for w in unique {
        let answer = decode(w);
        assert_eq!(answer, opcodes::decode(w).ok_or(10), "{w:x}");
        out.record(&eight(&[1, w]));
        out.meet(format!("decode {}", answer.as_ref().err().unwrap_or(&0)));
        match answer {
            Ok((op, v)) => out.answer(&eight(&[&[0, op as u64], &v.iter().map(|x| *x as u64).collect::<Vec<_>>()[..]].concat())),
            Err(n) => out.answer(&eight(&[n as u64])),
        }
    }
}

fn patches(r: &mut Rng, words: &[u64], o: &mut house::Oracle, out: &mut Pair) {
    let mut one = |used: usize, at: u64, target: u64, store: [u64; 4]| {
        let mut lent = store[..used].to_vec();
        let number = patch(o, &mut lent, at, target);
        out.record(&[&[2, used as u64, at, target], &store[..]].concat());
        let mut after = store;
        after[..used].copy_from_slice(&lent);
        out.answer(&eight(&[&[number as u64], &after[..]].concat()));
        out.meet(format!("patch {number}"));
    };
    let any = |r: &mut Rng| [0; 4].map(|_: u64| if r.chance(80) { r.pick(words) } else { r.next() });
    for (op, (_, fields)) in OPCODES.iter().enumerate() {
        let word = |r: &mut Rng| pack(op, &all_fitting(r, op), false).unwrap();
        let branch = fields.last().is_some_and(|f| f.is_disp());
        // by 01: the target that is as far as the field goes, and its neighbours
        let far = if !branch { 5 } else { 1u64 << (fields.last().unwrap().width() - 1) };
        let targets = [0, 1, 2, 3, 4, 5, far - 1, far, far + 1, far + 2, far + 3, far + 4, far + 5, 2 * far, 1 << 32, (1 << 32) + 5,
                       (1 << 63) - 1, 1 << 63, (1 << 63) + 1, (1 << 63) + 5, u64::MAX - 3, u64::MAX - 1, u64::MAX];
        let some = if branch { targets.len() } else { 3 };
        for target in &targets[..some] {
            let used = 1 + r.below(4) as usize;
            let at = r.below(used as u64);
            let mut store = any(r);
            store[at as usize] = word(r);
            one(used, at, *target, store);
        }
        // a stray bit is 10 before 11 and 8; a position past the words is 12 before all
        let width = used_bits(op);
        let mut store = any(r);
        store[2] = word(r);
        if width < 64 { let mut s = store; s[2] |= 1 << (width as u64 + r.below(64 - width as u64)); one(3, 2, u64::MAX, s) }
        one(2, 2, r.below(9), store);
    }
    for used in 0..=4usize {
        for at in [0, 1, 2, 3, 4, 5, 1 << 32, 1 << 63, u64::MAX] {
            for target in [0, u64::MAX] { let store = any(r); one(used, at, target, store) }
        }
    }
    for op in [77, 100, 255] { let mut s = any(r); s[0] = op; one(1, 0, 0, s) }
    for raw in [2, 3, 13, -1] { let mut s = any(r); s[1] = pack(3, &[0, raw], false).unwrap(); one(2, 1, 9, s) }
}
