//! Compiling.
//! Record: table words, parameters, locals, destination (0 none, else its
//! register plus 1), words lent, slots lent, then the table. Answer: number,
//! words used, slots used, register, frame, then all words, slot kinds and
//! slot payloads as they stand afterwards; zeros after what is used, and
//! throughout on a refusal.
use crate::Pair;
use tables::gen::{damage, good, tree, Rng, Shape};
use tables::opcodes::{decode, OPCODES};
use tables::small::{trees, LEAVES};
use tables::*;

struct Out { pair: Pair, h: house::Oracle }

impl Out {
    /// The job with so much room lent.
    fn lend(&mut self, job: &Job, words: usize, slots: usize) {
        let lent = Job { max_words: words, max_slots: slots, ..job.clone() };
        let out = &mut self.pair;
        out.record(&[job.table.len() as u64, job.params, job.locals, job.dst.map_or(0, |d| d + 1), words as u64, slots as u64]);
        out.more(&job.table);
        let answer = self.h.compile(&lent);
        out.meet(format!("{}", answer.as_ref().err().map_or(0, |r| r.0)));
        let (head, mut code, mut consts) = match answer {
            Err(Refused(n)) => ([n as u64, 0, 0, 0, 0], vec![], vec![]),
            Ok(c) => ([0, c.words.len() as u64, c.consts.len() as u64, c.reg as u64, c.frame as u64], c.words, c.consts),
        };
        for w in &code { out.meet(OPCODES[decode(*w).unwrap().0].0.to_string()) }
        code.resize(words, 0);
        consts.resize(slots, (0, 0));
        out.answer(&head);
        out.answer(&code);
        out.answer(&consts.iter().map(|c| c.0 as u64).collect::<Vec<_>>());
        out.answer(&consts.iter().map(|c| c.1).collect::<Vec<_>>());
    }

    /// Words and slots that the job takes where there is room.
    fn takes(&mut self, job: &Job) -> Option<(usize, usize)> {
        let c = self.h.compile(&Job { max_words: usize::MAX, max_slots: usize::MAX, ..job.clone() }).ok()?;
        Some((c.words.len(), c.consts.len()))
    }

    /// The job with room for what it takes and a little more.
    fn roomy(&mut self, job: &Job) {
        let (words, slots) = self.takes(job).unwrap_or((3, 2));
        self.lend(job, words + 1, slots + 1)
    }
}

/// Every small tree: up to two nodes over all leaves, three over most, a
/// ternary over a few; with and without a destination.
fn small(out: &mut Out) {
    let few = [(REF, 0), (TRUE, 0), (INT, 5), (FLOAT, 0x3FB9_9999_9999_999A)];
    let most = [(REF, 0), (REF, 1), (TRUE, 0), (INT, 5), (INT, 0xFF0), (INT, 32_768), (INT, 1 << 61), (FLOAT, 0x3FB9_9999_9999_999A)];
    for (n, leaves) in [(1, &LEAVES[..]), (2, &LEAVES), (3, &most), (4, &few)] {
        trees(n, leaves, &mut |b| {
            if n == 4 && b.words[12] != TERNARY { return }
            for dst in [None, Some(1)] { out.roomy(&Job { dst, ..b.job(2) }) }
        })
    }
}

/// Folds and their edges: masks with a shift on the left, shifts, 16-bit
/// literals on either side.
fn folds(out: &mut Out) {
    let ints = [-1, 0, 1, 4, 5, 63, 64, 0xFF0, 32_767, 32_768, -32_768, -32_769, (1 << 61) - 1, 1 << 61, (1 << 62) - 1, 1 << 60, 3 << 60, -(1 << 61), i64::MAX, i64::MIN];
    let b = Builder::default;
    for shift in [-1, 0, 4, 63, 64, 1 << 61] {
        for mask in ints { out.roomy(&b().reg(0).int(shift).op(RSHIFT).int(mask).op(BIT_AND).job(1)) }
    }
    for kind in BIT_AND..=GE {
        for n in ints {
            out.roomy(&b().reg(0).int(n).op(kind).job(1));
            out.roomy(&b().int(n).reg(0).op(kind).job(1));
        }
        for (x, y) in [(5, 5), (5, 32_768), (32_768, -32_769)] { out.roomy(&b().int(x).int(y).op(kind).job(1)) }
    }
    for n in ints.into_iter().chain([(1 << 37) - 1, 1 << 37, -(1 << 37), -(1 << 37) - 1]) { out.roomy(&b().int(n).job(1)) }
}

/// Comparisons as tests, in both senses, alone and under And, Or and Not.
fn tests(out: &mut Out) {
    for kind in EQ..=GE {
        for operands in [[(REF, 0), (REF, 1)], [(REF, 0), (INT, 5)], [(INT, 5), (REF, 0)], [(INT, 32_768), (REF, 1)]] {
            for around in [&[][..], &[NOT], &[AND], &[OR], &[NOT, AND], &[NOT, OR], &[AND, NOT], &[OR, NOT]] {
                for right in [false, true] {
                    let mut b = Builder::default();
                    let binary = around.iter().any(|k| *k != NOT);
                    if right && !binary { continue }
                    if right { b.reg(1); }
                    for (k, p) in operands { b.node(k, p); }
                    b.op(kind);
                    for k in around {
                        if *k != NOT && !right { b.reg(1); }
                        b.op(*k);
                    }
                    if kind % 2 == 0 { out.roomy(&b.job(2)) }
                    out.roomy(&b.int(1).reg(0).op(TERNARY).job(2));
                }
            }
        }
    }
}

/// The limits of registers, depth and nodes.
fn limits(out: &mut Out) {
    let b = Builder::default;
    for base in [0, 1, 2, 65_530, 65_531, 65_532, 65_533, 65_534, 65_535, 65_536] {
        for tree in [b().op(NIL), b().float(0.1), b().int(1 << 40).int(1 << 40).op(EQ), b().op(NIL).int(1).int(2).op(TERNARY),
                     b().int(9).int(8).op(ADD).int(7).op(NOT).op(MUL).int(6).int(5).op(DIV).op(SUB)] {
            let job = tree.job(base);
            for dst in [None, Some(base.wrapping_sub(1)).filter(|_| base > 0)] {
                for (words, slots) in [(12, 2), (0, 2), (12, 0), (0, 0), (1, 1)] { out.lend(&Job { dst, ..job.clone() }, words, slots) }
            }
        }
    }
    for (params, locals) in [(65_535, 1), (1, 65_535), (1 << 32, 1 << 32), (u64::MAX, 0), (u64::MAX, 1), (u64::MAX, u64::MAX)] {
        out.lend(&Job { params, locals, ..b().op(NIL).job(0) }, 2, 1)
    }
    for n in [MAX_DEPTH, MAX_DEPTH + 1] {
        let mut t = b();
        t.reg(0);
        for _ in 1..n { t.op(MINUS); }
        out.roomy(&t.job(1));
        // as many temporaries as a table can take
        let mut t = b();
        for _ in 0..n { t.int(1 << 20); }
        for _ in 1..n { t.op(EQ); }
        out.roomy(&t.job(1));
    }
    // 4,096 nodes with 2,048 jumps pending at once, then 4,097: the last that the third jump list is for, and the first that it is not
    let mut t = b();
    for i in 0..2_048u64 {
        t.reg(i % 3);
        for _ in 0..(i + 1).trailing_zeros() { t.op(OR); }
    }
    for _ in 0..2 { out.roomy(&t.op(NOT).job(3)) }
}

/// Equal constants share a slot (02, W2): slots for each distinct constant,
/// one less, one more, none.
fn shared(out: &mut Out) {
    let b = Builder::default;
    let big = 1 << 37;
    let mut forty = b();
    forty.float(0.1);
    for _ in 0..40 { forty.float(0.1).op(ADD); }
    let mut right = b();
    for _ in 0..40 { right.float(0.1); }
    for _ in 1..40 { right.op(ADD); }
    let jobs = [
        b().float(0.1).float(0.1).op(ADD).job(1),
        b().int(big).int(big).float(0.1).op(ADD).op(ADD).job(1),
        b().float(0.0).float(-0.0).op(ADD).job(1),
        b().int(0x3FF0 << 48).float(1.0).op(ADD).job(1),
        b().int(big - 1).int(big - 1).op(ADD).job(1),
        b().int(-big - 1).int(-big - 1).op(SUB).job(1),
        b().float(0.1).float(0.1).op(ADD).job(65_534),
        b().float(0.1).float(0.1).op(ADD).job(65_535),
        b().reg(0).float(0.1).float(0.1).op(TERNARY).job(1),
        // the second constant is met again, then the first
        b().float(0.1).float(0.2).op(ADD).float(0.2).op(ADD).float(0.1).op(ADD).job(1),
        b().float(0.1).float(0.2).op(LT).float(0.2).float(0.1).op(LT).op(AND).job(1),
        b().int(1 << 61).int(1 << 61).op(BIT_AND).int(1 << 61).op(BIT_AND).job(1),
        forty.job(1),
        right.job(1),
    ];
    for job in &jobs {
        let Some((words, slots)) = out.takes(job) else { out.lend(job, 3, 2); continue };
        for lent in [slots, slots.saturating_sub(1), slots + 1, 0] { out.lend(job, words, lent) }
        for lent in 0..words.min(4) { out.lend(job, lent, slots) }
    }
}

pub fn make() -> Pair {
    let mut r = Rng(5);
    let mut out = Out { pair: Pair::default(), h: house::Oracle::new() };
    small(&mut out);
    folds(&mut out);
    tests(&mut out);
    limits(&mut out);
    shared(&mut out);
    // random tables: room to spare, exactly full, one short of words or of slots
    for i in 0..400 {
        let mut job = good(&mut r, 16);
        if i % 2 == 0 {
            let base = r.below(5);
            let shape = Shape { nodes: 1 + r.below(24) as usize, depth: 5 + r.below(6), base, typed: r.pick(&[0, 80, 100]) };
            let params = r.below(base + 1);
            job = Job { params, locals: base - params, dst: if base > 0 && r.chance(40) { Some(r.below(base)) } else { None }, ..Builder { words: tree(&mut r, shape) }.job(0) };
        }
        if i % 3 == 2 && job.table.len() > 4 { job = damage(&mut r, &job) }
        let Some((words, slots)) = out.takes(&job) else { out.lend(&job, 3, 2); continue };
        out.lend(&job, words, slots);
        if words > 0 { out.lend(&job, words - 1, slots) }
        if slots > 0 { out.lend(&job, words, slots - 1) }
        if r.chance(30) { out.lend(&job, r.below(words as u64 + 1) as usize, r.below(slots as u64 + 1) as usize) }
    }
    for n in 0..=7 { out.pair.must_meet(&n.to_string()) }
    let emitted = OPCODES.iter().filter(|o| out.pair.met.contains_key(o.0)).count();
    assert_eq!(emitted, 44, "every opcode that the generator emits is met");
    out.pair
}
