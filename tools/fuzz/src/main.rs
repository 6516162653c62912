//! Hostile calls of every exported function: fuzz [calls] [seed]. Each answer, each result cell and each lent byte is held to the oracle's; see tools/fuzz/README.md.
mod fence;
use fence::Fence;
use house::Oracle;
use tables::gen::{damage, good, Rng};
use tables::meaning::{self, Ran};
use tables::opcodes::{self, OPCODES};
use tables::{Job, Refused};
use vosemaqe::ffi;

/// A budget is cut to this, so that a loop ends.
const STEPS: u64 = 300;
/// Fill of what is lent to be written.
const JUNK: u64 = 0x5A5A_5A5A_5A5A_5A5A;

struct Fuzz {
    r: Rng,
    oracle: Oracle,
    nodes: Fence,
    code: Fence,
    kinds: Fence,
    payloads: Fence,
    slot_kinds: Fence,
    slot_payloads: Fence,
    jumps: Fence,
    cells: Fence,
    /// how often each number was given
    numbers: [u64; 256],
}

type Outcome = Result<u8, String>;

impl Fuzz {
    fn new(seed: u64) -> Fuzz {
        let words = 8 * 4 * (tables::MAX_NODES + 64);
        Fuzz {
            r: Rng(seed), oracle: Oracle::new(), nodes: Fence::new(words), code: Fence::new(words), kinds: Fence::new(1 << 17), payloads: Fence::new(1 << 20),
            slot_kinds: Fence::new(1 << 16), slot_payloads: Fence::new(1 << 17), jumps: Fence::new(words / 4), cells: Fence::new(64), numbers: [0; 256],
        }
    }

    fn above(&mut self) -> bool { self.r.chance(70) }

    // ---- what is lent

    fn any(&mut self) -> u64 {
        match self.r.below(6) {
            0 => self.r.next(),
            1 => self.r.pick(&[0, 1, u64::MAX, 1 << 63, (1 << 63) - 1, 1 << 32, 65_534, 65_535, 65_536]),
            2 => self.r.next() >> self.r.below(64),
            _ => self.r.below(9),
        }
    }

    fn length(&mut self, most: u64) -> usize {
        if self.r.chance(20) { return self.r.below(3) as usize }
        self.r.below(most + 1) as usize
    }

    /// Tables: good, damaged, cut short, of small numbers, of noise, at and past the greatest length.
    fn job(&mut self) -> Job {
        let job = good(&mut self.r, 40);
        let mut job = match self.r.below(12) {
            0..=2 => job,
            3..=6 => damage(&mut self.r, &job),
            7 => { let two = damage(&mut self.r, &job); if two.table.len() < 4 { two } else { damage(&mut self.r, &two) } }
            8 => { let mut j = job; let n = self.length(j.table.len() as u64); j.table.truncate(n); j }
            9 => { let n = self.length(40); Job { table: (0..n).map(|_| self.r.below(30)).collect(), ..job } }
            10 => { let n = self.length(40); Job { table: (0..n).map(|_| self.any()).collect(), ..job } }
            _ if self.r.chance(1) => {
                // copies of the table: as many nodes as it may have, and a little more
                let n = 4 * (tables::MAX_NODES + self.r.below(3) as usize) + self.r.below(4) as usize;
                Job { table: job.table.iter().copied().cycle().take(n).collect(), ..job }
            }
            _ => job,
        };
        if self.r.chance(15) { job.params = self.any() }
        if self.r.chance(15) { job.locals = self.any() }
        if self.r.chance(15) { job.dst = Some(self.any()).filter(|d| *d < u64::MAX) }
        job
    }

    /// Pairs, in two runs of lengths that may differ. Mostly all are well-formed.
    fn pairs(&mut self, most: u64) -> (Vec<u8>, Vec<u64>) {
        let (n, hostile) = (self.length(most), self.r.chance(25));
        let mut kinds: Vec<u8> = (0..n).map(|_| self.r.pick(&[0, 1, 2, 2, 2, 3, 3])).collect();
        let mut payloads: Vec<u64> = kinds.clone().iter().map(|k| match k { 0 => 0, 1 => self.r.below(2), 2 => self.any(), _ => tables::gen::float(&mut self.r) }).collect();
        if hostile && n > 0 {
            match self.r.below(4) {
                0 => kinds.truncate(self.length(n as u64)),
                1 => payloads.truncate(self.length(n as u64)),
                2 => { let at = self.r.below(n as u64) as usize; kinds[at] = self.r.next() as u8 }
                _ => { let at = self.r.below(n as u64) as usize; payloads[at] = self.any() }
            }
        }
        (kinds, payloads)
    }

    /// A word: noise; an opcode with small operands, of which one may not fit; the same with a bit turned.
    fn word(&mut self) -> u64 {
        if self.r.chance(10) { return self.r.next() }
        let op = if self.r.chance(80) { self.r.pick(&[2, 3, 4, 5, 8, 9, 10, 11, 12, 14, 15, 16, 17, 18, 19, 20, 21, 22, 23, 24, 25, 26, 43, 44, 45, 47, 51, 54, 55, 58, 61, 65]) } else { self.r.below(80) as usize };
        if op >= OPCODES.len() { return op as u64 | self.r.next() << 8 }
        let operands: Vec<i64> = OPCODES[op].1.iter().map(|f| self.operand(*f)).collect();
        let word = opcodes::pack(op, &operands, false).unwrap_or(op as u64);
        if self.r.chance(5) { word ^ 1 << self.r.below(64) } else { word }
    }

    fn operand(&mut self, f: opcodes::Kind) -> i64 {
        if self.r.chance(4) { return opcodes::extend(f, self.r.next()) }
        if f.is_disp() { return self.r.below(12) as i64 - 4 }
        if f.is_reg() { return self.r.below(7) as i64 }
        if f.width() == 40 && self.r.chance(80) { return self.r.pick(&[1, 5, 9, 0, 4, 8, -4, 400, -(1 << 39), (1 << 39) - 4]) }
        self.r.below(9) as i64
    }

    fn words(&mut self) -> Vec<u64> {
        if self.r.chance(15) {
            // words that a compile made, whole or with one of them spoiled
            let job = Job { max_words: usize::MAX, max_slots: usize::MAX, ..good(&mut self.r, 30) };
            if let Ok(mut c) = self.oracle.compile(&job) {
                if self.r.chance(40) && !c.words.is_empty() { let at = self.r.below(c.words.len() as u64) as usize; c.words[at] = self.word() }
                return c.words;
            }
        }
        let n = self.length(12);
        (0..n).map(|_| self.word()).collect()
    }

    // ---- the calls

    fn check(&mut self) -> Outcome {
        let (j, above) = (self.job(), self.above());
        let nodes = self.nodes.lend(&j.table, above);
        let number = unsafe { ffi::vosemaqe_check(nodes, j.table.len(), j.params, j.locals, dest(&j)) };
        let want = tables::check(&j.table, j.params, j.locals, j.dst);
        self.expect(number == want && self.nodes.holds(&j.table), number, || format!("check {j:?}: {number}, not {want}"))
    }

    fn compile(&mut self, with: bool) -> Outcome {
        let mut j = self.job();
        let most = if self.r.chance(80) { 200 } else { 6 };
        let room = self.length(most);
        let (kinds, payloads) = (self.length(20), self.length(20));
        (j.max_words, j.max_slots) = (room, kinds.min(payloads));
        let places = (j.table.len() / 4).div_ceil(2);
        let jumps = if self.r.chance(30) { places } else { self.length(places as u64) };
        let a: [bool; 6] = std::array::from_fn(|_| self.above());
        let nodes = self.nodes.lend(&j.table, a[0]);
        let code = self.code.lend(&vec![JUNK; room], a[1]);
        let sk = self.slot_kinds.lend(&vec![JUNK as u8; kinds], a[2]);
        let sp = self.slot_payloads.lend(&vec![JUNK; payloads], a[3]);
        let list = self.jumps.lend(&vec![JUNK; jumps], a[4]);
        let c = self.cells.lend(&[JUNK; 4], a[5]);
        let number = unsafe {
            if with {
                ffi::vosemaqe_compile_with(nodes, j.table.len(), j.params, j.locals, dest(&j), code, room, sk, kinds, sp, payloads, list, jumps, c, c.add(1), c.add(2), c.add(3))
            } else {
                ffi::vosemaqe_compile(nodes, j.table.len(), j.params, j.locals, dest(&j), code, room, sk, kinds, sp, payloads, c, c.add(1), c.add(2), c.add(3))
            }
        };
        let want = if with { runner::with_list(&mut self.oracle, &j, jumps) } else { self.oracle.compile(&j) };
        let literals = j.table.chunks(4).filter(|n| matches!(n[0], tables::INT | tables::FLOAT)).count();
        let pad = |mut v: Vec<u64>, n: usize| { v.resize(n, 0); v };
        let ok = match &want {
            Ok(w) => number == 0 && w.words.len() <= j.table.len() && w.consts.len() <= literals && self.cells.holds(&[w.words.len() as u64, w.consts.len() as u64, w.reg as u64, w.frame as u64])
                && self.code.holds(&pad(w.words.clone(), room))
                && self.slot_kinds.holds(&pad(w.consts.iter().map(|p| p.0 as u64).collect(), kinds).iter().map(|k| *k as u8).collect::<Vec<u8>>())
                && self.slot_payloads.holds(&pad(w.consts.iter().map(|p| p.1).collect(), payloads)),
            Err(Refused(n)) => number == *n && self.cells.holds(&[0u64; 4]) && self.code.holds(&vec![0u64; room])
                && self.slot_kinds.holds(&vec![0u8; kinds]) && self.slot_payloads.holds(&vec![0u64; payloads]),
        };
        let list_kept = self.jumps.holds(&vec![if with { 0 } else { JUNK }; jumps]);
        self.expect(ok && list_kept && self.nodes.holds(&j.table), number, || format!("compile {with} {j:?} kinds {kinds} payloads {payloads} jumps {jumps}: {number}, not {want:?}"))
    }

    fn evaluate(&mut self) -> Outcome {
        let (j, (kinds, payloads)) = (self.job(), self.pairs(8));
        let a: [bool; 4] = std::array::from_fn(|_| self.above());
        let nodes = self.nodes.lend(&j.table, a[0]);
        let (k, p, c) = (self.kinds.lend(&kinds, a[1]), self.payloads.lend(&payloads, a[2]), self.cells.lend(&[JUNK; 2], a[3]));
        let number = unsafe { ffi::vosemaqe_evaluate(nodes, j.table.len(), j.params, j.locals, k, kinds.len(), p, payloads.len(), c, c.add(1)) };
        let want = meaning::evaluate(&j.table, j.params, j.locals, &kinds, &payloads);
        let cells = want.map_or([0, 0], |v| { let (k, p) = v.pair(); [k as u64, p] });
        let ok = number == want.err().unwrap_or(0) && self.cells.holds(&cells) && self.nodes.holds(&j.table) && self.kinds.holds(&kinds) && self.payloads.holds(&payloads);
        self.expect(ok, number, || format!("evaluate {j:?} {kinds:?} {payloads:?}: {number}, not {want:?}"))
    }

    fn run(&mut self, part: bool) -> Outcome {
        let (words, (mut kinds, mut payloads), (sk, sp)) = (self.words(), self.pairs(9), self.pairs(4));
        let n = words.len() as u64;
        let at = |f: &mut Fuzz| if f.r.chance(60) { 0 } else if f.r.chance(80) { f.r.below(n + 3) } else { f.any() };
        let (start, mut end) = (at(self), n);
        if self.r.chance(50) { end = at(self) }
        let budget = self.any().min(self.r.pick(&[STEPS, 20]));
        let a: [bool; 6] = std::array::from_fn(|_| self.above());
        let w = self.code.lend(&words, a[0]);
        let (k, p) = (self.kinds.lend(&kinds, a[1]), self.payloads.lend(&payloads, a[2]));
        let (s, t, c) = (self.slot_kinds.lend(&sk, a[3]), self.slot_payloads.lend(&sp, a[4]), self.cells.lend(&[JUNK; 2], a[5]));
        let (nk, np) = (kinds.len(), payloads.len());
        let before = (kinds.clone(), payloads.clone());
        let (number, want) = if part {
            (unsafe { ffi::vosemaqe_run_part(w, words.len(), start as usize, end as usize, k, nk, p, np, s, sk.len(), t, sp.len(), budget, c, c.add(1)) },
                meaning::run_part(&words, start, end, &mut kinds, &mut payloads, &sk, &sp, budget))
        } else {
            (unsafe { ffi::vosemaqe_run(w, words.len(), start as usize, k, nk, p, np, s, sk.len(), t, sp.len(), budget, c, c.add(1)) },
                meaning::run_lent(&words, start, &mut kinds, &mut payloads, &sk, &sp, budget))
        };
        let Ran { number: n, steps, pos } = want;
        let ok = number == n && self.cells.holds(&[steps, pos]) && self.kinds.holds(&kinds) && self.payloads.holds(&payloads)
            && self.code.holds(&words) && self.slot_kinds.holds(&sk) && self.slot_payloads.holds(&sp);
        self.expect(ok, number, || format!("run {part} {words:x?} start {start} end {end} budget {budget} on {before:?}, slots {sk:?} {sp:?}: {number}, not {want:?}"))
    }

    /// A word is decoded; the operands, most often spoiled, are encoded.
    fn decode_encode(&mut self, encode: bool) -> Outcome {
        let word = self.word();
        let above = self.above();
        let want = opcodes::decode(word);
        let mut parts = [0u64; 6];
        if let Some((op, v)) = &want {
            parts[0] = *op as u64;
            for (p, x) in parts[1..].iter_mut().zip(v) { *p = *x as u64 }
        }
        if !encode {
            let c = self.cells.lend(&[JUNK; 6], above);
            let number = unsafe { ffi::vosemaqe_decode(word, c, c.add(1), c.add(2), c.add(3), c.add(4), c.add(5)) };
            let ok = number == if want.is_some() { 0 } else { 10 } && self.cells.holds(&parts);
            return self.expect(ok, number, || format!("decode {word:#x}: {number}, not {want:?}"));
        }
        if self.r.chance(60) { let at = self.r.below(6) as usize; parts[at] = if self.r.chance(50) { self.any() } else { self.r.below(80) } }
        let fields = OPCODES.get(usize::try_from(parts[0]).unwrap_or(usize::MAX)).map(|o| o.1);
        let made = fields.and_then(|f| {
            let v: Vec<i64> = parts[1..=f.len()].iter().map(|x| *x as i64).collect();
            let rest = parts[1 + f.len()..].iter().all(|x| *x == 0);
            let raws = f.iter().zip(&v).all(|(k, x)| *k != opcodes::Kind::I40 || opcodes::is_house_raw(*x));
            if rest && raws { opcodes::pack(parts[0] as usize, &v, false) } else { None }
        });
        let c = self.cells.lend(&[JUNK; 1], above);
        let number = unsafe { ffi::vosemaqe_encode(parts[0], parts[1], parts[2], parts[3], parts[4], parts[5], c) };
        let ok = number == if made.is_some() { 0 } else { 9 } && self.cells.holds(&[made.unwrap_or(0)]);
        self.expect(ok, number, || format!("encode {parts:x?}: {number}, not {made:x?}"))
    }

    fn patch(&mut self) -> Outcome {
        let (mut words, above) = (self.words(), self.above());
        let at = if self.r.chance(80) { self.r.below(words.len() as u64 + 1) } else { self.any() };
        let target = if self.r.chance(40) { self.any() } else { self.r.pick(&[1u64 << 23, 1 << 31, 0, 1 << 63]).wrapping_add(at).wrapping_add(self.r.below(5)).wrapping_sub(2) };
        let w = self.code.lend(&words, above);
        let number = unsafe { ffi::vosemaqe_patch(w, words.len(), at as usize, target) };
        let before = words.clone();
        let want = house::words::patch(&mut self.oracle, &mut words, at, target);
        self.expect(number == want && self.code.holds(&words), number, || format!("patch {before:x?} at {at} to {target}: {number}, not {want}; left {:x?}", self.code.now::<u64>()))
    }

    /// A table that the check accepts stays as it is.
    fn complete(&mut self) -> Outcome {
        let (j, above) = (self.job(), self.above());
        let nodes = self.nodes.lend(&j.table, above);
        unsafe { ffi::vosemaqe_complete(nodes, j.table.len()) };
        let want = completed(&j.table);
        let stays = tables::check(&j.table, j.params, j.locals, j.dst) != 0 || want == j.table;
        self.expect(stays && self.nodes.holds(&want), 0, || format!("complete {j:?}: {:?}, not {want:?}", self.nodes.now::<u64>()))
    }

    fn expect(&self, ok: bool, number: u8, what: impl Fn() -> String) -> Outcome { if ok { Ok(number) } else { Err(what()) } }
}

/// First and depth by the header: of a node whose children are missing both are 0; an unknown kind is taken to have three.
fn completed(table: &[u64]) -> Vec<u64> {
    let mut t = table.to_vec();
    for i in 0..t.len() / 4 {
        let (mut first, mut deepest, mut missing) = (i, 0, false);
        for _ in 0..tables::arity(t[4 * i]).unwrap_or(3) {
            missing |= first == 0;
            if missing { break }
            deepest = deepest.max(t[4 * first - 1]);
            first = t[4 * first - 2] as usize;
        }
        (t[4 * i + 2], t[4 * i + 3]) = if missing { (0, 0) } else { (first as u64, deepest + 1) };
    }
    t
}

/// 0 for none, r + 1 for register r.
fn dest(j: &Job) -> u64 { j.dst.map_or(0, |d| d + 1) }

const NAMES: [&str; 10] = ["check", "compile", "compile_with", "evaluate", "run", "run_part", "decode", "encode", "patch", "complete"];
/// Of a hundred calls.
const SHARE: [u64; 10] = [14, 10, 6, 14, 14, 8, 10, 12, 8, 4];

/// The fences themselves: every byte of a buffer and of its margin is looked at. With the argument `touch` the program reads one byte past a
/// buffer, above or below, and has to be stopped by that.
fn fences() {
    let touch = std::env::args().nth(1).filter(|a| a.starts_with("touch"));
    for above in [true, false] {
        let mut f = Fence::new(64);
        let at = f.lend(&[7u8; 5], above);
        // SAFETY: within the buffer and its margin, but for the one read that must stop the program.
        unsafe {
            if touch.as_deref() == Some(if above { "touch-above" } else { "touch-below" }) {
                println!("read {}", at.offset(if above { 5 } else { -1 }).read_volatile());
            }
            for i in if above { -64..5isize } else { 0..69 } {
                let was = at.offset(i).replace(0);
                assert!(!f.holds(&[7u8; 5]));
                at.offset(i).write(was);
            }
        }
        assert!(f.holds(&[7u8; 5]));
    }
    assert!(touch.is_none(), "a byte outside was read, and nothing happened");
}

fn main() {
    fences();
    runner::quiet();
    let [calls, seed] = runner::numbers([100_000, 1]);
    let mut f = Fuzz::new(seed);
    let (mut made, began) = ([0u64; 10], std::time::Instant::now());
    for _ in 0..calls {
        let mut ticket = f.r.below(SHARE.iter().sum());
        let which = SHARE.iter().position(|s| if ticket < *s { true } else { ticket -= s; false }).unwrap();
        let outcome = match which {
            0 => f.check(),
            1 | 2 => f.compile(which == 2),
            3 => f.evaluate(),
            4 | 5 => f.run(which == 5),
            6 | 7 => f.decode_encode(which == 7),
            8 => f.patch(),
            _ => f.complete(),
        };
        made[which] += 1;
        match outcome {
            Ok(number) => f.numbers[number as usize] += 1,
            Err(what) => { println!("{what}"); runner::finish(format!("fuzz: an answer or a lent byte is not the oracle's, seed {seed}"), 1) }
        }
    }
    println!("calls: {}", NAMES.iter().zip(made).map(|(n, m)| format!("{n} {m}")).collect::<Vec<_>>().join(", "));
    println!("numbers: {}", f.numbers.iter().enumerate().filter(|(_, m)| **m > 0).map(|(n, m)| format!("{n}: {m}")).collect::<Vec<_>>().join(", "));
    runner::finish(format!("fuzz: {calls} calls, seed {seed}, every answer and every lent byte as the oracle says; {:.1} s", began.elapsed().as_secs_f64()), 0)
}
