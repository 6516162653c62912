//! The proved library, through its exported functions, against the oracle in
//! one process: the compile against the given generator in house mode (number,
//! results, every lent byte) and against the Rust as published under the
//! listed differences; check, evaluator and machine against document 01
//! written in Rust.
//!     large [random jobs] [seed] [nodes of the small trees]
use boundary::{Lent, Made, Room};
use runner::{explained, local, with_list};
use std::collections::BTreeMap;
use std::time::Instant;
use tables::gen::{damage, float, good, int, tree, Rng, Shape};
use tables::meaning::{self, V};
use tables::small::{trees, LEAVES};
use tables::*;

/// Register contents as a caller lends them.
#[derive(Clone)]
struct Pairs { kinds: Vec<u8>, payloads: Vec<u64> }

impl Pairs {
    fn of(values: impl Iterator<Item = V>) -> Pairs {
        let (kinds, payloads) = values.map(|v| v.pair()).unzip();
        Pairs { kinds, payloads }
    }
    /// The library, which may only read these, left them as they were.
    fn unwritten(&self, before: &Pairs) -> bool { unwritten(&self.kinds, &before.kinds) && unwritten(&self.payloads, &before.payloads) }
    fn cut(&self, n: usize) -> Pairs { Pairs { kinds: self.kinds[..n].to_vec(), payloads: self.payloads[..n].to_vec() } }
}

/// The compiler takes a shared slice to be unchanged; `black_box` has it looked at.
fn unwritten<T: PartialEq>(now: &[T], before: &[T]) -> bool { std::hint::black_box(now) == before }

struct Large {
    h: house::Oracle,
    p: published::Oracle,
    r: Rng,
    compiles: usize,
    accepted: usize,
    nodes: usize,
    refused: BTreeMap<u8, usize>,
    published: usize,
    seen: BTreeMap<&'static str, usize>,
    evaluated: BTreeMap<u8, usize>,
    ran: BTreeMap<u8, usize>,
    steps: u64,
    bad: usize,
    /// what differs, with its smallest table
    worst: BTreeMap<&'static str, (usize, String)>,
}

impl Large {
    fn hold(&mut self, good: bool, what: &'static str, size: usize, say: impl FnOnce() -> String) {
        if good { return }
        self.bad += 1;
        if self.worst.get(what).is_none_or(|w| size < w.0) { self.worst.insert(what, (size, say())); }
    }

    /// One compile with so much room, against both modes.
    fn meet(&mut self, job: &mut Job, room: Room) {
        (job.max_words, job.max_slots) = (room.words, room.slots());
        let want = self.h.compile(job);
        self.answer(job, room, &want);
        let (published, mut seen) = (self.p.compile(job), vec![]);
        self.published += 1;
        // the house answer is the library's, or has been reported
        let good = explained(&mut self.h, job, &published, &want, &mut seen);
        seen.sort();
        seen.dedup();
        for s in seen { *self.seen.entry(s).or_default() += 1 }
        self.hold(good, "compile, as published", job.table.len(), || format!("{job:?}\n  published {published:?}\n  wanted {want:?}"));
    }

    /// One compile with so much room and a jump list that is lent.
    fn meet_list(&mut self, job: &mut Job, room: Room) {
        (job.max_words, job.max_slots) = (room.words, room.slots());
        let want = with_list(&mut self.h, job, room.jumps.expect("a list"));
        self.answer(job, room, &want);
    }

    /// One compile of the library's, held to an answer.
    fn answer(&mut self, job: &Job, room: Room, want: &Result<Compiled, Refused>) {
        let mut made = Made::lend(room);
        made.compile(job);
        self.compiles += 1;
        match want {
            Ok(_) => { self.accepted += 1; self.nodes += job.table.len() / 4 }
            Err(Refused(n)) => *self.refused.entry(*n).or_default() += 1,
        }
        self.hold(made.is(want), "compile", job.table.len(), || {
            format!("{job:?} {room:?}\n  library {} {:?} {:x?}\n  wanted {want:?}", made.number, made.results, made.answer())
        });
    }

    /// A job with room to spare, exactly full and one short: words, slots,
    /// registers, jumps. The answer where there is room.
    fn rooms(&mut self, job: &mut Job) -> Option<Compiled> {
        let table = job.table.clone();
        let check = boundary::check(job);
        self.hold(check == tables::check(&job.table, job.params, job.locals, job.dst), "check", job.table.len(), || format!("{job:?}: {check}"));
        if check != 0 {
            let (words, kinds, payloads) = (self.r.below(4) as usize, self.r.below(3) as usize, self.r.below(3) as usize);
            self.meet(job, Room { words, kinds, payloads, jumps: None });
            let want = Err(Refused(check));
            self.answer(job, Room { words, kinds, payloads, jumps: Some(kinds) }, &want);
            self.hold(job.table == table, "table written", table.len(), || format!("{table:?}"));
            return None;
        }
        (job.max_words, job.max_slots) = (usize::MAX, usize::MAX);
        let free = self.h.compile(job);
        let (w, s) = free.as_ref().map_or((6, 2), |c| (c.words.len(), c.consts.len()));
        let (more, some) = (self.r.below(9) as usize, self.r.below(3) as usize);
        self.meet(job, Room { words: w + more, kinds: s + 1, payloads: s + some, jumps: None });
        self.meet(job, Room::new(w, s));
        if w > 0 { self.meet(job, Room::new(w - 1, s)) }
        if s > 0 { self.meet(job, Room { kinds: s - 1, ..Room::new(w, s) }); self.meet(job, Room { payloads: s - 1, ..Room::new(w + more, s + some) }) }
        let Ok(c) = free else { return None };
        // jumps
        let n = jumps::most(&table);
        self.answer(job, Room { jumps: Some(n), ..Room::new(w, s) }, &Ok(c.clone()));
        self.answer(job, Room { jumps: Some(n + 1 + some), ..Room::new(w + 1, s) }, &Ok(c.clone()));
        if n > 0 { self.answer(job, Room { jumps: Some(n - 1), ..Room::new(w + more, s + some) }, &Err(Refused(7))) }
        // anything may be short, the slices of unequal length
        let (words, kinds, payloads, places) = (self.r.below(w as u64 + 2), self.r.below(s as u64 + 2), self.r.below(s as u64 + 2), self.r.below(n as u64 + 1));
        self.meet_list(job, Room { words: words as usize, kinds: kinds as usize, payloads: payloads as usize, jumps: Some(places as usize) });
        // registers: the highest base that is accepted, and the next
        let locals = job.locals;
        let temporaries = c.frame as u64 - job.base().max(1);
        job.locals = MAX_REGS - temporaries - job.params.min(MAX_REGS - temporaries);
        for _ in 0..2 {
            self.meet(job, Room::new(w, s));
            if n > 0 { self.meet_list(job, Room { jumps: Some(n - 1), ..Room::new(w, s) }) }
            job.locals += 1;
        }
        job.locals = locals;
        self.hold(job.table == table, "table written", table.len(), || format!("{table:?}"));
        Some(c)
    }

    fn evaluate(&mut self, job: &Job, lent: &Pairs) {
        let want = meaning::evaluate(&job.table, job.params, job.locals, &lent.kinds, &lent.payloads);
        let want = match want { Ok(v) => (0, v.pair().0 as u64, v.pair().1), Err(n) => (n, 0, 0) };
        let (table, before) = (job.table.clone(), lent.clone());
        let got = boundary::evaluate(job, &lent.kinds, &lent.payloads);
        *self.evaluated.entry(want.0).or_default() += 1;
        let kept = unwritten(&job.table, &table) && lent.unwritten(&before);
        self.hold(got == want && kept, "evaluate", job.table.len(), || format!("{job:?}\n  {:?} {:x?}: {got:?}, wanted {want:?}", lent.kinds, lent.payloads));
    }

    /// A run of the whole, or of the words from `entry` to `end` of a store;
    /// the steps it takes.
    fn run(&mut self, words: &[u64], part: Option<(u64, u64)>, start: u64, lent: &Pairs, slots: &Pairs, budget: u64) -> u64 {
        let (mut kinds, mut payloads) = (Lent::of(&lent.kinds), Lent::of(&lent.payloads));
        let mut after = lent.clone();
        let (code, consts) = (words.to_vec(), slots.clone());
        let (got, want) = match part {
            None => (boundary::run(words, start, kinds.part_mut(), payloads.part_mut(), &slots.kinds, &slots.payloads, budget),
                meaning::run_lent(words, start, &mut after.kinds, &mut after.payloads, &slots.kinds, &slots.payloads, budget)),
            Some((entry, end)) => (boundary::run_part(words, entry, end, kinds.part_mut(), payloads.part_mut(), &slots.kinds, &slots.payloads, budget),
                meaning::run_part(words, entry, end, &mut after.kinds, &mut after.payloads, &slots.kinds, &slots.payloads, budget)),
        };
        *self.ran.entry(want.number).or_default() += 1;
        self.steps += want.steps;
        let good = got == want && kinds.part() == after.kinds && payloads.part() == after.payloads && kinds.margins() && payloads.margins()
            && unwritten(words, &code) && slots.unwritten(&consts);
        self.hold(good, "run", words.len(), || format!("{words:x?} {part:?} start {start} budget {budget}\n  {:?} {:x?}: {got:?}, wanted {want:?}", lent.kinds, lent.payloads));
        want.steps
    }

    /// What may lie in a temporary before a run.
    fn any_value(&mut self) -> V {
        match self.r.below(4) { 0 => V::Nil, 1 => V::Bool(self.r.chance(50)), 2 => V::Int(int(&mut self.r)), _ => V::Float(f64::from_bits(float(&mut self.r))) }
    }

    /// Accepted words, run and evaluated on these locals: all of the budget,
    /// exactly enough, one short.
    fn means(&mut self, job: &Job, c: &Compiled, lent: &Pairs) {
        let slots = Pairs { kinds: c.consts.iter().map(|p| p.0).collect(), payloads: c.consts.iter().map(|p| p.1).collect() };
        self.evaluate(job, lent);
        let steps = self.run(&c.words, None, 0, lent, &slots, c.words.len() as u64);
        self.run(&c.words, None, 0, lent, &slots, steps);
        if steps > 0 { self.run(&c.words, None, 0, lent, &slots, steps - 1); }
    }

    /// The same on locals of the generator's, then with something amiss:
    /// too few, of unequal length, ill-formed; another start, a part of a store.
    fn random_runs(&mut self, job: &Job, c: &Compiled) {
        let base = job.base() as usize;
        let r = &mut self.r;
        let mut values = vec![V::Nil; (c.frame as usize).max(base)];
        // the temporaries are among those past the base
        for (i, v) in values.iter_mut().enumerate() { if i < 8 || i + 1 >= base { *v = local(r, &job.table, i as u64) } }
        let all = Pairs::of(values.into_iter());
        self.means(job, c, &all);
        let mut lent = all.clone();
        let n = lent.kinds.len();
        match self.r.below(8) {
            0 if n > 0 => lent = all.cut(n - 1),
            1 if base > 0 => lent = all.cut(base - 1),
            2 => lent.kinds.push(9),
            3 => lent.payloads.push(9),
            4 if n > 0 => { let i = self.r.below(n as u64) as usize; (lent.kinds[i], lent.payloads[i]) = self.r.pick(&[(0, 1), (1, 2), (4, 0), (255, 3)]) }
            5 if base > 0 => { let i = self.r.below(base as u64) as usize; lent.kinds[i] = 7 }
            _ => {}
        }
        self.evaluate(job, &lent);
        let mut slots = Pairs { kinds: c.consts.iter().map(|p| p.0).collect(), payloads: c.consts.iter().map(|p| p.1).collect() };
        if !c.consts.is_empty() && self.r.chance(20) { slots.payloads.pop(); }
        let start = self.r.below(c.words.len() as u64 + 2);
        let budget = self.r.below(c.words.len() as u64 + 2);
        self.run(&c.words, None, start, &lent, &slots, budget);
        // one bit of one word, or its opcode, is another
        if !c.words.is_empty() {
            let (mut words, at) = (c.words.clone(), self.r.below(c.words.len() as u64) as usize);
            if self.r.chance(50) { words[at] ^= 1 << self.r.below(64) } else { words[at] = words[at] & !0xFF | self.r.below(90) }
            self.run(&words, None, 0, &all, &slots, 2 * c.words.len() as u64);
        }
        // between other words, with the right bounds and near them
        let (front, back) = (self.r.below(3), self.r.below(3));
        let mut store = vec![0x41u64; front as usize];
        store.extend(&c.words);
        store.extend(vec![0; back as usize]);
        let end = front + c.words.len() as u64;
        self.run(&store, Some((front, end)), 0, &lent, &slots, c.words.len() as u64);
        let (off, by) = (self.r.below(3), self.r.below(4));
        self.run(&store, Some((front + off, end + by - end.min(1))), 0, &all, &slots, budget);
    }

    fn random(&mut self, jobs: u64) {
        for i in 0..jobs {
            let mut job = good(&mut self.r, 4_096);
            if i % 3 == 2 { job = damage(&mut self.r, &job) }
            // the job's own room, where it has one
            if job.max_words.min(job.max_slots) < usize::MAX {
                let room = Room::new(job.max_words.min(3 * job.table.len()), job.max_slots.min(job.table.len()));
                self.meet(&mut job, room);
            }
            if let Some(c) = self.rooms(&mut job) { self.random_runs(&job, &c) }
        }
    }

    /// Every tree of up to so many nodes over 11 leaves.
    fn small(&mut self, nodes: usize) {
        let nan = V::Float(f64::NAN);
        let locals = [[V::Int(7), V::Int(-3)], [V::Bool(true), V::Bool(false)], [nan, V::Float(2.5)], [V::Int(i64::MIN), V::Int(1)]];
        for n in 1..=nodes {
            trees(n, &LEAVES, &mut |b| for dst in [None, Some(1)] {
                let mut job = Job { dst, ..b.job(2) };
                let Some(c) = self.rooms(&mut job) else { continue };
                for l in locals {
                    let rest: Vec<V> = (2..c.frame).map(|_| self.any_value()).collect();
                    self.means(&job, &c, &Pairs::of(l.into_iter().chain(rest)))
                }
            })
        }
    }

    /// Shallow tables of so many nodes.
    fn wide(&mut self, nodes: usize, kinds: &[u64], typed: &[u64]) {
        // a power of two of Refs, with one node less of Or
        let refs = 1 << ((nodes as u64 + 1) / 2).ilog2();
        let mut t = boundary::shapes::junctions(refs, OR);
        while t.words.len() / 4 < nodes { t.op(NOT); }
        self.rooms(&mut t.job(3));
        for kind in kinds { self.rooms(&mut boundary::shapes::full(*kind, nodes).job(2)); }
        for typed in typed {
            let table = tree(&mut self.r, Shape { nodes, depth: MAX_DEPTH, base: 4, typed: *typed });
            let mut job = Job { table, ..Builder::default().job(4) };
            if let Some(c) = self.rooms(&mut job) { self.random_runs(&job, &c) }
        }
    }

    /// Document 01's limits: samples 11 to 14, and what lies beside them.
    fn limits(&mut self) {
        let b = Builder::default;
        // registers, with words and slots that run out beside them
        let trees = [b().op(NIL).words.clone(), b().reg(0).words.clone(), b().float(0.1).words.clone(), b().int(1 << 40).int(1 << 40).op(EQ).words.clone(),
            b().op(NIL).int(1).int(2).op(TERNARY).words.clone(), b().op(TRUE).op(FALSE).op(OR).words.clone(),
            b().int(9).int(8).op(ADD).int(7).op(NOT).op(MUL).int(6).float(5.0).op(DIV).op(SUB).words.clone()];
        for table in &trees {
            for base in [0, 1, 2, 65_530, 65_531, 65_532, 65_533, 65_534, 65_535, 65_536, u64::MAX] {
                for dst in [None, Some(0), Some(1), Some(base.wrapping_sub(1)), Some(base), Some(65_535), Some(u64::MAX - 1)] {
                    let dst = dst.filter(|d| *d < u64::MAX);
                    for params in [base, 1, 0].into_iter().filter(|p| *p <= base) {
                        let mut job = Job { table: table.clone(), params, locals: base - params, dst, max_words: 0, max_slots: 0 };
                        for words in 0..13 { for (kinds, payloads) in [(0, 0), (1, 1), (2, 2), (2, 3), (1, 2), (3, 0)] { self.meet(&mut job, Room { words, kinds, payloads, jumps: None }) } }
                        self.rooms(&mut job);
                    }
                }
            }
            for (params, locals) in [(65_535, 1), (1, 65_535), (1 << 32, 1 << 32), (u64::MAX, 0), (u64::MAX, 1), (u64::MAX, u64::MAX), (1 << 63, 1 << 63)] {
                self.rooms(&mut Job { table: table.clone(), params, locals, dst: None, max_words: 0, max_slots: 0 });
            }
        }
        // lengths that are no table
        for n in (0..9).chain([4 * MAX_NODES - 1, 4 * MAX_NODES, 4 * MAX_NODES + 1, 4 * MAX_NODES + 4]) {
            let mut job = b().op(NIL).job(1);
            job.table = job.table.into_iter().cycle().take(n).collect();
            self.rooms(&mut job);
        }
        // one level less than may be, as many, one more, in every kind, to the left and to the right
        for depth in [MAX_DEPTH - 1, MAX_DEPTH, MAX_DEPTH + 1] {
            for kind in MINUS..=TERNARY {
                for place in 0..arity(kind).unwrap() {
                    for leaf in [(REF, 0), (TRUE, 0), (INT, 1 << 40), (INT, 5), (FLOAT, 1)] {
                        let mut job = boundary::shapes::chain(kind, place, depth, leaf).job(2);
                        if let Some(c) = self.rooms(&mut job) { self.random_runs(&job, &c) }
                    }
                }
            }
        }
        // around the length of each jump list: half of the nodes are jumps that are pending at once; every kind; any
        for nodes in [64, 512, 4_096] { for extra in 0..3 { self.wide(nodes - 1 + extra, &(BIT_AND..=TERNARY).collect::<Vec<_>>(), &[0, 80, 100]) } }
        // as many nodes as may be, one less, one more: a few kinds, for the time's sake
        for extra in 0..3 { self.wide(MAX_NODES - 1 + extra, &[LT, OR, TERNARY], &[80]) }
        // a jump over as many words as there can be
        let mut far = boundary::shapes::equal_tests(8_192).job(2);
        let c = self.rooms(&mut far).expect("far jumps fit");
        self.random_runs(&far, &c);
        // samples 13 and 14
        for n in [63, 64] {
            let mut job = b().reg(0).int(n).op(LSHIFT).job(1);
            let c = self.rooms(&mut job).expect("sample 13 compiles");
            for v in [0, 1, -1] {
                let temporary = self.any_value();
                self.means(&job, &c, &Pairs::of([V::Int(v), temporary].into_iter().take(c.frame as usize)))
            }
        }
        let mut job = b().reg(0).job(1);
        let c = self.rooms(&mut job).expect("sample 14 compiles");
        let lent = Pairs::of([V::Int(7)].into_iter());
        assert!(c.words.is_empty() && self.run(&c.words, None, 0, &lent, &Pairs::of([].into_iter()), 0) == 0);
    }
}

/// The comparison sees a difference in each result and in each lent byte.
fn sees() {
    let job = Builder::default().reg(0).reg(1).op(LT).float(0.5).int(1 << 40).op(TERNARY).job(2);
    let room = Room { words: 6, kinds: 3, payloads: 4, jumps: Some(2) };
    let made = || { let mut m = Made::lend(room); m.compile(&job); m };
    // what the answer should be is not the matter here
    let want = made().answer();
    assert!(want.is_ok() && made().is(&want) && !made().is(&Err(Refused(7))), "the tried job is compiled");
    let spoiled = |how: &dyn Fn(&mut Made)| { let mut m = made(); how(&mut m); assert!(!m.is(&want), "a spoiled answer is seen") };
    spoiled(&|m| m.number = 7);
    for i in 0..4 { spoiled(&|m| m.results[i] ^= 1) }
    for i in 0..6 { spoiled(&|m| m.code.part_mut()[i] ^= 1 << 63) }
    for i in 0..3 { spoiled(&|m| m.kinds.part_mut()[i] ^= 1) }
    for i in 0..4 { spoiled(&|m| m.payloads.part_mut()[i] ^= 1) }
    for i in 0..2 { spoiled(&|m| m.jumps.as_mut().unwrap().part_mut()[i] ^= 1) }
    for margin in [0, 1] { spoiled(&|m| m.code.spoil(margin)); spoiled(&|m| m.kinds.spoil(margin)) }
}

fn main() {
    let [jobs, seed, nodes] = runner::numbers([300_000, 1, 4]);
    runner::quiet();
    sees();
    let mut l = Large { h: house::Oracle::new(), p: published::Oracle::new(), r: Rng(seed), compiles: 0, accepted: 0, nodes: 0, refused: BTreeMap::new(),
        published: 0, seen: BTreeMap::new(), evaluated: BTreeMap::new(), ran: BTreeMap::new(), steps: 0, bad: 0, worst: BTreeMap::new() };
    let parts: [(String, &dyn Fn(&mut Large)); 3] = [
        (format!("every tree of up to {nodes} nodes"), &|l| l.small(nodes as usize)),
        ("limits".into(), &|l| l.limits()),
        (format!("{jobs} random jobs, seed {seed}"), &|l| l.random(jobs)),
    ];
    for (name, part) in parts {
        let (t, compiles) = (Instant::now(), l.compiles);
        part(&mut l);
        println!("{name}: {} compiles, {:.0} s, {} differ so far", l.compiles - compiles, t.elapsed().as_secs_f64(), l.bad);
    }
    println!("compile: {} accepted with {} nodes; refused, by number: {:?}", l.accepted, l.nodes, l.refused);
    println!("compile as published: {} jobs; differences of the list met: {:?}", l.published, l.seen);
    println!("evaluate, by number: {:?}", l.evaluated);
    println!("run, by number: {:?}; {} steps", l.ran, l.steps);
    for (what, (_, say)) in &l.worst { println!("DIFFERS: {what}, smallest: {say}") }
    runner::finish(format!("large: {} compiles, {} differ", l.compiles, l.bad), l.bad);
}
