//! The machine.
//! Record: words, entry, end, start, budget, kinds, payloads, slot kinds,
//! slot payloads (counts, but for entry to budget), then the five runs. Entry
//! 0 and the count of words as end is a run of the whole from the start;
//! anything else is a run of that part, and the start is then 0.
//! Answer: number, steps, position, then kinds and payloads after.
use crate::Pair;
use runner::local;
use tables::gen::{beside, damage, good, tree, Rng, Shape};
use tables::meaning::{run_lent, run_part, Ran, V};
use tables::opcodes::{extend, pack, Kind::*, OPCODES};
use tables::*;

#[derive(Clone, Default)]
struct Run { words: Vec<u64>, part: Option<(u64, u64)>, start: u64, budget: u64, kinds: Vec<u8>, payloads: Vec<u64>, slot_kinds: Vec<u8>, slot_payloads: Vec<u64> }

impl Run {
    fn new(words: &[u64], regs: &[V], slots: &[V]) -> Run {
        let pairs = |v: &[V]| v.iter().map(|v| v.pair()).unzip();
        let ((kinds, payloads), (slot_kinds, slot_payloads)) = (pairs(regs), pairs(slots));
        Run { words: words.to_vec(), budget: 100, kinds, payloads, slot_kinds, slot_payloads, ..Run::default() }
    }

    /// Runs it; the registers after are the record's no more, so on a copy.
    fn run(&self) -> (Ran, Vec<u8>, Vec<u64>) {
        let (mut k, mut p) = (self.kinds.clone(), self.payloads.clone());
        let (sk, sp) = (&self.slot_kinds, &self.slot_payloads);
        let ran = match self.part {
            None => run_lent(&self.words, self.start, &mut k, &mut p, sk, sp, self.budget),
            Some((entry, end)) => run_part(&self.words, entry, end, &mut k, &mut p, sk, sp, self.budget),
        };
        (ran, k, p)
    }

    fn put(&self, out: &mut Pair, label: &str) {
        let wide = |v: &[u8]| v.iter().map(|k| *k as u64).collect::<Vec<_>>();
        let n = self.words.len() as u64;
        let (entry, end) = self.part.unwrap_or((0, n));
        assert!(self.start == 0 || (entry, end) == (0, n));
        out.record(&[n, entry, end, self.start, self.budget, self.kinds.len() as u64, self.payloads.len() as u64,
                     self.slot_kinds.len() as u64, self.slot_payloads.len() as u64]);
        for run in [&self.words, &wide(&self.kinds), &self.payloads, &wide(&self.slot_kinds), &self.slot_payloads] { out.more(run) }
        let (ran, k, p) = self.run();
        out.answer(&[ran.number as u64, ran.steps, ran.pos]);
        out.answer(&wide(&k));
        out.answer(&p);
        out.meet(format!("{}", ran.number));
        out.meet(format!("{label}: {}", ran.number));
        if ran.steps > n { out.meet("more steps than words".to_string()) }
    }
}

/// nop and what the generator emits.
fn is_run(op: usize) -> bool { matches!(op, 2..=5 | 8..=12 | 14..=26 | 43..=65) }

fn word(name: &str, operands: &[i64]) -> u64 {
    let op = OPCODES.iter().position(|o| o.0 == name).unwrap();
    pack(op, operands, false).unwrap()
}

/// Every opcode alone, on registers of every kind and on the edges of Int and
/// of Float: 0 and 1 are read, 2 is written, a branch leaps over a nop.
fn each_opcode(r: &mut Rng, out: &mut Pair) {
    let float = |bits| V::Float(f64::from_bits(bits));
    let kinds = [V::Nil, V::Bool(true), V::Bool(false), V::Int(7), V::Int(-2), V::Int((1 << 53) + 1), V::Float(1.5), float(0x7FF0_0000_0000_0001)];
    let ints = [0, -1, 3, i64::MAX, i64::MIN].map(V::Int);
    let floats = [1 << 63, 0x3FF8_0000_0000_0000, 0x7FF0_0000_0000_0001, 0xFFF0_0000_0000_0000, 0x7FEF_FFFF_FFFF_FFFF].map(float);
    let square = |v: &[V]| v.iter().flat_map(|a| v.iter().map(|b| (*a, *b)).collect::<Vec<_>>()).collect::<Vec<_>>();
    let pairs = [square(&kinds), square(&ints), square(&floats)].concat();
    for (op, (name, fields)) in OPCODES.iter().enumerate() {
        // fewer pairs where one register or none is read, few where the word is not run
        let share = [10, 25, 60, 60][fields.iter().filter(|f| **f == Reg).count()];
        for (i, (a, b)) in pairs.iter().enumerate() {
            if !(if is_run(op) { r.chance(share) } else { i % 50 == 0 }) { continue }
            let mut reads = 0;
            let operands: Vec<i64> = fields.iter().map(|f| match f {
                OutReg => 2,
                Reg => { reads += 1; reads - 1 }
                I40 => r.pick(&[4, -4, 0, 1, 5, 9, (1 << 39) - 4, -(1 << 39)]),
                I16 => r.pick(&[7, -2, 0, 1, -1, 32_767, -32_768]),
                U6 => r.below(64) as i64,
                Disp24 | Disp32 => 1,
                U32 => r.below(2) as i64,
                _ => 0,
            }).collect();
            let words = [pack(op, &operands, false).unwrap(), word("nop", &[])];
            Run::new(&words, &[*a, *b, V::Nil], &[V::Float(0.5), *b]).put(out, name);
        }
    }
    // masks of any lo and len
    for lo in [0, 1, 31, 32, 61, 62, 63] {
        for len in [0, 1, 2, 31, 32, 33, 61, 62, 63] {
            let x = V::Int(if r.chance(50) { -1 } else { r.next() as i64 });
            Run::new(&[word("bit_and_mask", &[1, 0, lo, len])], &[x, V::Nil], &[]).put(out, "mask");
            Run::new(&[word("rshift_mask", &[1, 0, r.pick(&[0, 1, 5, 62, 63]), lo, len])], &[x, V::Nil], &[]).put(out, "mask");
        }
    }
}

/// Every branch on an Int beside a Float, either way round, and beside the
/// Int as a 16-bit literal where it is one: a branch that is not taken loads
/// True into a register of its own.
fn int_beside_float(out: &mut Pair) {
    const NAMES: [&str; 10] = ["jeq", "jne", "jlt", "jle", "jgt", "jge", "jnlt", "jnle", "jngt", "jnge"];
    let each = |branch: &dyn Fn(&str) -> u64| -> Vec<u64> {
        NAMES.iter().enumerate().flat_map(|(i, name)| [branch(name), word("load_imm40", &[2 + i as i64, 9])]).collect()
    };
    for (n, q) in beside() {
        let (int, float) = (V::Int(n), V::Float(f64::from_bits(q)));
        for pair in [[int, float], [float, int]] {
            let regs = [&pair[..], &[V::Nil; 10]].concat();
            Run::new(&each(&|name| word(name, &[0, 1, 1])), &regs, &[]).put(out, "beside");
        }
        if i16::try_from(n).is_ok() {
            let regs = [&[float, V::Nil][..], &[V::Nil; 10]].concat();
            Run::new(&each(&|name| word(&format!("{name}_imm16"), &[0, n, 1])), &regs, &[]).put(out, "beside");
        }
    }
}

/// The order of the checks, each pair of neighbours.
fn order(out: &mut Pair) {
    let (nil, yes, one) = (V::Nil, V::Bool(true), V::Int(1));
    let mut put = |label: &str, words: &[u64], regs: &[V], slots: &[V], start: u64, budget: u64| {
        Run { start, budget, ..Run::new(words, regs, slots) }.put(out, label)
    };
    let bad = 77;
    let panic = word("panic", &[]);
    let call = word("call_pc", &[9, 0, 0]);
    let jmp = |d: i64| word("jmp", &[d]);
    // end before 25; 25 before 10; 27 and 28 before 26
    put("end", &[], &[], &[], 0, 0);
    put("end", &[bad], &[], &[], 1, 0);
    for budget in [0, 1] { for w in [bad, panic, call, 1, word("nop", &[]), 1 << 63 | 2] { put("first", &[w], &[], &[], 0, budget) } }
    // a register or slot before the operation's fault
    for (a, b) in [(0, 0), (0, 3), (3, 0), (3, 3), (0, 65_535)] {
        for d in [1, 3] { put("register", &[word("add", &[d, a, b])], &[nil, one, one], &[], 0, 9) }
        put("register", &[word("jlt", &[a, b, 9])], &[nil, one, one], &[], 0, 9);
        put("register", &[word("not", &[a, b])], &[one], &[], 0, 9);
    }
    for s in [0, 1, 2, 65_536, u32::MAX as i64] { for d in [0, 1] { put("slot", &[word("load_const", &[d, s])], &[nil], &[one, yes], 0, 9) } }
    // the operation's fault before the target; a target not taken is not looked at
    for d in [-3, -2, -1, 0, 1, 2, (1 << 23) - 1, -(1 << 23)] {
        for v in [yes, V::Bool(false), nil] {
            for name in ["if_true", "if_false"] { put("target", &[word("nop", &[]), word(name, &[0, d])], &[v], &[], 0, 5) }
        }
        for (a, b) in [(one, one), (one, V::Int(2)), (one, nil), (V::Float(f64::NAN), one), (V::Int(1 << 60), V::Float(1.0))] {
            for name in ["jeq", "jlt", "jnlt", "jge"] { put("target", &[word(name, &[0, 1, d])], &[a, b], &[], 0, 5) }
            for name in ["jne_imm16", "jle_imm16", "jngt_imm16"] { put("target", &[word(name, &[0, 1, d])], &[a, b], &[], 0, 5) }
        }
    }
    for d in [-2, -1, 0, 1, 2, i32::MAX as i64, i32::MIN as i64] {
        for budget in [0, 1, 2, 1_000] { put("jmp", &[jmp(d), word("nop", &[])], &[], &[], 0, budget) }
    }
    for start in [0, 1, 2, 3, 1 << 32, u64::MAX] { put("start", &[word("mov", &[0, 1]), word("mov", &[1, 0])], &[yes, one], &[], start, 5) }
    // the budget to the step, and a loop of exactly so many
    let count = [word("add_imm16", &[0, 0, 1]), word("jlt_imm16", &[0, 10, -2])];
    for budget in [0, 1, 2, 3, 18, 19, 20, 21, u64::MAX] { put("loop", &count, &[V::Int(0)], &[], 0, budget) }
}

/// Ill-formed pairs and unequal lengths, with a start within and past the
/// words.
fn ill(out: &mut Pair) {
    let whole = Run::new(&[word("mov", &[1, 0]), word("load_const", &[0, 1])], &[V::Int(1), V::Nil, V::Bool(true)], &[V::Nil, V::Int(4)]);
    for start in [0, 1, 2, 3, u64::MAX] {
        let run = Run { start, budget: 5, ..whole.clone() };
        run.put(out, "lent");
        for (k, p) in [(0, 1), (1, 2), (4, 0), (255, 0)] {
            for i in 0..3 {
                let mut x = run.clone();
                (x.kinds[i], x.payloads[i]) = (k, p);
                x.put(out, "lent");
                if i < 2 { let mut x = run.clone(); (x.slot_kinds[i], x.slot_payloads[i]) = (k, p); x.put(out, "lent") }
                // the same beyond the shorter length
                let mut x = run.clone();
                x.kinds.push(k);
                x.slot_payloads.push(p);
                x.put(out, "lent");
            }
        }
        for cut in 0..3 {
            let mut x = run.clone();
            x.kinds.truncate(cut);
            x.put(out, "lent");
            let mut x = run.clone();
            x.payloads.truncate(cut);
            x.put(out, "lent");
            let mut x = run.clone();
            x.slot_kinds.truncate(cut);
            x.put(out, "lent");
            let mut x = run.clone();
            x.slot_payloads.truncate(cut);
            x.put(out, "lent");
        }
    }
}

/// The compiled words of a random tree, on registers as its evaluation would
/// find them.
fn compiled(r: &mut Rng, h: &mut house::Oracle) -> Run {
    let base = r.below(7);
    let shape = Shape { nodes: 1 + r.below(14) as usize, depth: 5 + r.below(4), base, typed: r.pick(&[0, 97, 100, 100, 100]) };
    let mut job = if r.chance(90) { Builder { words: tree(r, shape) }.job(base) } else { good(r, 14) };
    if r.chance(3) { job = damage(r, &job) }
    (job.max_words, job.max_slots) = (usize::MAX, usize::MAX);
    if job.params < 7 && base > 0 && r.chance(30) { job.dst = Some(r.below(base)) }
    match h.compile(&job) {
        Ok(c) if c.frame < 20 => {
            let regs: Vec<V> = (0..c.frame as u64).map(|i| local(r, &job.table, i)).collect();
            let slots: Vec<V> = c.consts.iter().map(|p| V::from_pair(*p).unwrap()).collect();
            Run::new(&c.words, &regs, &slots)
        }
        _ => compiled(r, h),
    }
}

/// Compiled words as they are, with every kind of budget, and spoiled.
fn trees(r: &mut Rng, h: &mut house::Oracle, out: &mut Pair) {
    for _ in 0..900 {
        let mut run = compiled(r, h);
        run.budget = run.words.len() as u64;
        let steps = run.run().0.steps;
        run.put(out, "tree");
        run.budget = [0, 1, steps, steps.wrapping_sub(1), steps + 1, u64::MAX][r.below(6) as usize];
        match r.below(8) {
            0 => { run.kinds.truncate(r.below(4) as usize) }
            1 => { run.slot_payloads.pop(); }
            2 => run.start = r.below(run.words.len() as u64 + 2),
            3 => { run.kinds.push(9); run.slot_kinds.push(200) }
            4 | 5 if !run.words.is_empty() => { let at = r.below(run.words.len() as u64) as usize; run.words[at] ^= 1 << r.below(64) }
            _ => {}
        }
        run.put(out, "tree, spoiled");
    }
}

/// Words at random: those that are run, with small operands and jumps both
/// ways, now and then another or a damaged one. Registers 0 to 3 mostly hold
/// Ints, 4 a Float, 5 a Bool.
fn random(r: &mut Rng, out: &mut Pair) {
    let run: Vec<usize> = (0..77).filter(|op| is_run(*op)).collect();
    for _ in 0..1_300 {
        let n = 1 + r.below(9);
        let words: Vec<u64> = (0..n).map(|_| {
            if r.chance(1) { return r.next() }
            let op = if r.chance(2) { r.below(77) as usize } else { r.pick(&run) };
            let bools = matches!(OPCODES[op].0, "not" | "if_true" | "if_false");
            let operands: Vec<i64> = OPCODES[op].1.iter().map(|f| match f {
                OutReg | Reg if r.chance(2) => r.pick(&[5, 6]),
                OutReg | Reg => if bools { 5 } else { r.pick(&[0, 1, 2, 3, 0, 1, 2, 3, 4]) },
                I40 => if r.chance(90) { r.below(40) as i64 * 4 - 40 } else { r.pick(&[1, 5, 9]) },
                I16 => r.below(12) as i64 - 4,
                U6 => { let most = r.pick(&[6, 6, 6, 64]); r.below(most) as i64 }
                U32 => r.below(3) as i64,
                Disp24 | Disp32 => r.below(n + 1) as i64 - n as i64 / 2 - 1,
                _ => extend(*f, r.next()),
            }).collect();
            let word = pack(op, &operands, false).unwrap();
            if r.chance(1) { word ^ 1 << r.below(64) } else { word }
        }).collect();
        let int = |r: &mut Rng| V::Int(r.below(12) as i64 - 3);
        let regs = [int(r), int(r), int(r), if r.chance(10) { V::Nil } else { int(r) }, V::Float(r.below(9) as f64 / 2.0), V::Bool(r.chance(50))];
        let slots = [int(r), V::Int(1 << 60), V::Float(0.1)];
        let mut run = Run { budget: r.pick(&[3, 20, 60, 200]), ..Run::new(&words, &regs, &slots) };
        if r.chance(20) { run.start = r.below(n + 1) }
        run.put(out, "random");
    }
}

/// Parts of a store that several compiled expressions share.
fn parts(r: &mut Rng, h: &mut house::Oracle, out: &mut Pair) {
    for _ in 0..160 {
        let runs: Vec<Run> = (0..3).map(|_| compiled(r, h)).collect();
        let store: Vec<u64> = runs.iter().flat_map(|x| x.words.clone()).collect();
        let n = store.len() as u64;
        let mut entry = 0;
        for x in &runs {
            let end = entry + x.words.len() as u64;
            if (entry, end) != (0, n) && r.chance(50) { Run { words: store.clone(), part: Some((entry, end)), ..x.clone() }.put(out, "part") }
            entry = end;
        }
        let any = |r: &mut Rng| match r.below(8) { 0 => n, 1 => n + 1, 2 => u64::MAX, 3 => 0, _ => r.below(n + 1) };
        let (entry, end) = (any(r), any(r));
        if (entry, end) != (0, n) { Run { words: store, part: Some((entry, end)), budget: 50, ..runs[1].clone() }.put(out, "part, any bounds") }
    }
}

pub fn make() -> Pair {
    let mut r = Rng(4);
    let mut h = house::Oracle::new();
    let mut out = Pair::default();
    each_opcode(&mut r, &mut out);
    int_beside_float(&mut out);
    order(&mut out);
    ill(&mut out);
    trees(&mut r, &mut h, &mut out);
    random(&mut r, &mut out);
    parts(&mut r, &mut h, &mut out);
    for n in [0, 10].into_iter().chain(20..=29) { out.must_meet(&n.to_string()) }
    // each of the 45 opcodes completes a step, and each other one is met
    for (op, (name, _)) in OPCODES.iter().enumerate() {
        out.must_meet(&format!("{name}: {}", if is_run(op) { 0 } else if op == 0 { 27 } else { 28 }));
    }
    for what in ["more steps than words", "register: 20", "register: 26", "slot: 0", "slot: 26", "target: 0", "target: 20", "target: 26", "beside: 0", "start: 0", "start: 26",
                 "loop: 0", "loop: 25", "lent: 0", "lent: 26", "lent: 29", "tree: 0", "tree, spoiled: 0", "tree, spoiled: 10", "tree, spoiled: 25", "random: 0", "random: 25",
                 "part: 0", "part, any bounds: 0", "part, any bounds: 26"] { out.must_meet(what) }
    out
}
