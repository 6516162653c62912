//! The table check and the evaluator.
//! Record: table words, parameters, locals, destination (0 none, else its
//! register plus 1), kinds lent, payloads lent, then the table, the kinds,
//! the payloads. Answer: the check's number; the evaluator's number (it takes
//! no destination), kind and payload, zeros on a refusal or a fault.
use crate::Pair;
use runner::local;
use tables::gen::{beside, damage, good, tree, Rng, Shape};
use tables::meaning::evaluate;
use tables::*;

/// What is lent: the locals as pairs.
type Locals = (Vec<u8>, Vec<u64>);

fn one(out: &mut Pair, table: &[u64], params: u64, locals: u64, dst: Option<u64>, (kinds, payloads): &Locals) {
    let dest = dst.map_or(0, |d| d + 1);
    out.record(&[table.len() as u64, params, locals, dest, kinds.len() as u64, payloads.len() as u64]);
    out.more(table);
    out.more(&kinds.iter().map(|k| *k as u64).collect::<Vec<_>>());
    out.more(payloads);
    let refusal = refusal(table, params, locals, dst);
    let (number, value) = match evaluate(table, params, locals, kinds, payloads) { Ok(v) => (0, v.pair()), Err(n) => (n, (0, 0)) };
    out.answer(&[refusal.map_or(0, |(n, _)| n as u64), number as u64, value.0 as u64, value.1]);
    out.meet(refusal.map_or("check 0".to_string(), |(n, why)| format!("check {n}, {why}")));
    out.meet(format!("evaluate {number}"));
}

/// Locals for a job: at least the base, mostly of the kinds the tree expects;
/// now and then too few, unequal, or ill-formed within or beyond the base.
fn lend(r: &mut Rng, job: &Job) -> Locals {
    let base = job.base().min(12);
    let some = if r.chance(4) { r.below(base + 1) } else { base + r.below(3) };
    let (mut kinds, mut payloads): Locals = (0..some).map(|i| local(r, &job.table, i).pair()).unzip();
    for _ in 0..r.pick(&[0, 0, 0, 1, 2]) { if r.chance(50) { kinds.push(r.below(256) as u8) } else { payloads.push(r.next()) } }
    if some > 0 && r.chance(4) { kinds[r.below(some) as usize] = r.pick(&[0, 1, 4, 5, 255]) }
    if some > base && r.chance(40) { kinds[base as usize] = 4 + r.below(250) as u8 }
    (kinds, payloads)
}

/// A small job whose tree keeps to the kinds of its registers.
fn calm(r: &mut Rng) -> Job {
    let base = r.below(9);
    let shape = Shape { nodes: 1 + r.below(11) as usize, depth: 5 + r.below(3), base, typed: 100 };
    let params = r.below(base + 1);
    Job { params, locals: base - params, ..Builder { words: tree(r, shape) }.job(0) }
}

/// Trees that end in each of 20 to 24.
fn faulty(b: &mut Builder, number: u64) {
    match number {
        20 => b.int(1).op(NOT),
        21 => b.int(i64::MAX).int(1).op(ADD),
        22 => b.int(1).int(0).op(MOD),
        23 => b.int((1 << 53) + 1).int(1).op(DIV),
        _ => b.int(1).int(64).op(LSHIFT),
    };
}

pub fn make() -> Pair {
    let mut r = Rng(3);
    let mut out = Pair::default();
    let none: Locals = (vec![], vec![]);
    let pairs = |v: &[(u8, u64)]| -> Locals { v.iter().copied().unzip() };

    // an Int beside a Float: the pairs that the machine meets too, two comparisons of each, either way round
    for (i, (n, q)) in beside().into_iter().enumerate() {
        let (int, float) = ((2, n as u64), (3, q));
        for kind in if i < 21 { EQ..=GE } else { EQ + i as u64 % 5..=EQ + i as u64 % 5 + 1 } {
            for locals in [[int, float], [float, int]] {
                let mut b = Builder::default();
                one(&mut out, &b.reg(0).reg(1).op(kind).words, 2, 0, None, &pairs(&locals));
            }
        }
    }

    // a Float literal that is not finite: 2, with the payload rule; any Int payload stays
    for payload in [0x7FF0_0000_0000_0000, 0xFFF0_0000_0000_0000, 0x7FF8_0000_0000_0000, 0x7FF0_0000_0000_0001, u64::MAX, 0x7FEF_FFFF_FFFF_FFFF,
                    0xFFEF_FFFF_FFFF_FFFF, 1 << 63, 1, 0] {
        for kind in [NIL, INT, FLOAT] { one(&mut out, &[kind, payload, 0, 1], 0, 0, None, &none) }
        one(&mut out, &[FLOAT, payload, 0, 0], 0, 0, None, &none);
        // after the faults of an earlier node, of the destination and of the layout
        one(&mut out, &[REF, 0, 0, 1, FLOAT, payload, 1, 1, ADD, 0, 0, 2], 0, 0, None, &none);
        for dst in [None, Some(0)] { one(&mut out, &[FLOAT, payload, 0, 1], 0, 0, dst, &none) }
        one(&mut out, &[FLOAT, payload, 0, 1], 65_535, 1, None, &none);
    }

    // left before right, and what is skipped: two faults in every pair of places
    for kind in BIT_AND..=OR {
        for left in 20..=24 {
            for right in 20..=24 {
                let mut b = Builder::default();
                faulty(&mut b, left);
                faulty(&mut b, right);
                one(&mut out, &b.op(kind).words, 0, 0, None, &none);
            }
            for other in [TRUE, FALSE, NIL] {
                let mut b = Builder::default();
                faulty(&mut b, left);
                one(&mut out, &b.op(other).op(kind).words, 0, 0, None, &none);
                let mut b = Builder::default();
                b.op(other);
                faulty(&mut b, left);
                one(&mut out, &b.op(kind).words, 0, 0, None, &none);
            }
        }
    }
    for test in [TRUE, FALSE, NIL] {
        for (then, other) in [(20, 21), (0, 22), (23, 0), (0, 0)] {
            let mut b = Builder::default();
            b.op(test);
            for arm in [then, other] { if arm == 0 { b.int(7); } else { faulty(&mut b, arm) } }
            one(&mut out, &b.op(TERNARY).words, 0, 0, None, &none);
        }
    }

    // too few children, each kind; what stands before is right
    for kind in 0..=28u64 {
        for before in 0..4 {
            let mut b = Builder::default();
            for _ in 0..before { b.op(NIL); }
            b.words.extend([kind, 0, 0, if before == 0 { 1 } else { 2 }]);
            one(&mut out, &b.words, 0, 0, None, &none);
        }
    }
    // one node, each field spoiled; a payload where none belongs
    for kind in 0..=5u64 {
        let payload = if kind < 3 { 0 } else { 1 };
        for (at, x) in [(0, 27), (0, u64::MAX), (1, 1), (1, 1 << 63), (2, 1), (2, u64::MAX), (3, 0), (3, 2), (3, MAX_DEPTH + 1), (3, u64::MAX), (0, kind)] {
            let mut t = [kind, payload, 0, 1];
            t[at] = x;
            one(&mut out, &t, 1, 1, None, &pairs(&[(2, 5), (2, 6)]));
        }
    }

    // nodes over others: every word of every node spoiled, one at a time
    for kind in [MINUS, ADD, TERNARY] {
        for deeper in 0..arity(kind).unwrap() {
            let mut b = Builder::default();
            for place in 0..arity(kind).unwrap() { b.reg(place as u64 % 2); if place == deeper { b.op(MINUS); } }
            let table = b.op(kind).words.clone();
            for at in 0..table.len() {
                for x in [table[at].wrapping_sub(1), table[at] + 1, u64::MAX] {
                    let mut t = table.clone();
                    t[at] = x;
                    one(&mut out, &t, 1, 1, None, &pairs(&[(2, 5), (2, 6)]));
                }
            }
        }
    }
    // no whole node; a first beyond the node; no depth is one more than 2^64 - 1
    for t in [&[NIL, 0, 0][..], &[TERNARY, 0, 0, 2], &[REF, 0, 0, 1, REF, 0, 2, 1, ADD, 0, 0, 2], &[NIL, 0, 0, u64::MAX, NOT, 0, 0, 0], &[NIL, 0, 0, 1, NOT, 0, 0, u64::MAX]] {
        one(&mut out, t, 1, 0, None, &pairs(&[(2, 5)]));
    }

    // the limits: depth, nodes, registers
    for depth in [MAX_DEPTH, MAX_DEPTH + 1] {
        for (leaf, op) in [(REF, MINUS), (TRUE, NOT), (TRUE, AND), (FALSE, OR), (FALSE, TERNARY), (INT, ADD)] {
            for right in [false, true] {
                let mut b = Builder::default();
                let leaves = if right { arity(op).unwrap() - 1 } else { 0 };
                for _ in 1..depth { for _ in 0..leaves { b.node(leaf, 0); } }
                b.node(leaf, 0);
                for _ in 1..depth {
                    if !right { for _ in 1..arity(op).unwrap() { b.node(leaf, 0); } }
                    b.op(op);
                }
                one(&mut out, &b.words, 1, 0, None, &pairs(&[(2, 3)]));
            }
        }
    }
    let mut b = Builder::default();
    for i in 0..2_048u64 {
        b.node(if i % 2 == 0 { REF } else { INT }, i % 3);
        for _ in 0..(i + 1).trailing_zeros() { b.op(ADD); }
    }
    for _ in 0..2 {
        // 4,096 nodes, then 4,097: no limit any more, and still the widest that are here
        b.op(MINUS);
        one(&mut out, &b.words, 2, 1, None, &pairs(&[(2, 3), (2, 5), (3, 0x4004_0000_0000_0000)]));
    }
    let word = [REF, 0, 0, 1];
    for (params, locals) in [(0, 0), (0, 1), (1, 0), (65_535, 0), (0, 65_535), (65_534, 1), (65_535, 1), (1, 65_535), (65_536, 0), (1 << 32, 0), (1 << 63, 1 << 63),
                             (u64::MAX, 0), (u64::MAX, 1), (u64::MAX, 2), (1, u64::MAX), (u64::MAX, u64::MAX)] {
        for dst in [None, Some(0), Some(1), Some(65_534), Some(65_535), Some(65_536), Some(u64::MAX - 1)] {
            one(&mut out, &word, params, locals, dst, &pairs(&[(1, 1)]));
        }
    }
    for at in [0, 1, 2, 3, 65_535, 65_536, 1 << 32, u64::MAX] { one(&mut out, &[REF, at, 0, 1], 1, 1, None, &pairs(&[(2, 1), (2, 2)])) }

    // random tables, most of them good; some damaged, once or twice
    let mut ended = (0, 0); // in a value, of how many that pass the check
    for i in 0..2_000 {
        let mut job = if i % 4 == 3 { good(&mut r, 12) } else { calm(&mut r) };
        for _ in 0..[0, 0, 0, 1, 0, 1, 0, 2][i % 8] { if job.table.len() > 4 { job = damage(&mut r, &job) } }
        let lent = if job.table.is_empty() { none.clone() } else { lend(&mut r, &job) };
        if check(&job.table, job.params, job.locals, None) == 0 { ended.1 += 1 }
        ended.0 += evaluate(&job.table, job.params, job.locals, &lent.0, &lent.1).is_ok() as usize;
        one(&mut out, &job.table, job.params, job.locals, job.dst, &lent);
    }
    assert!(2 * ended.0 > ended.1, "most random runs end in a value: {ended:?}");
    // too many nodes are 2 MB: tests/c and tools/large.sh have them
    for what in ["check 0", "check 1, empty", "check 1, not a multiple of 4 words", "check 2, unknown kind", "check 2, payload", "check 2, not finite",
                 "check 2, missing child", "check 2, first", "check 2, depth", "check 2, last node's first", "check 3, too deep", "check 4, destination",
                 "check 4, Ref", "check 5, layout"] { out.must_meet(what) }
    for n in (0..=5).chain(20..=24).chain([26, 29]) { out.must_meet(&format!("evaluate {n}")) }
    out
}
