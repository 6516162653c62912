//! Stack bytes of the exported functions: each is called on a stack of its
//! own that was filled with a pattern, and what it changed below its caller
//! is counted, the return address with it, the caller's arguments without.
//! The most is printed for some depths, over chains of one kind, of two kinds
//! and of several mixed at random, and for some numbers of nodes.
//!     stack [random chains for each row]
//!     objdump -d --no-show-raw-insn --demangle LINKED | stack frames
//! Prints the frame of each function that the exported ones reach, and the
//! deepest way of calls from each of those.
use boundary::{shapes, Made, Room};
use std::arch::asm;
use std::collections::BTreeMap;
use std::io::BufRead;
use tables::gen::{Rng, FLOATS};
use tables::*;

/// A byte that is written with what stood there does not show: two patterns.
const PAINTS: [u64; 2] = [0xA5A5_A5A5_A5A5_A5A5, 0x5A5A_5A5A_5A5A_5A5A];

/// A stack for each pattern. The words at the top are the arguments that do not
/// go into registers.
struct Stack([Vec<u64>; 2]);
const ARGUMENTS: usize = 32;

impl Stack {
    fn new(kib: usize) -> Stack { Stack(PAINTS.map(|p| vec![p; kib * 128 + 2])) }

    /// Bytes that the call of `f` changes below its caller.
    fn call(&mut self, f: usize, args: &[u64]) -> (u8, usize) {
        let mut out = (0, 0);
        for (stack, paint) in self.0.iter_mut().zip(PAINTS) {
            // the stack pointer is a multiple of 16 at a call
            let first = stack.len() - 2 - ARGUMENTS + stack.as_ptr() as usize / 8 % 2;
            stack[first..first + args.len() - 6].copy_from_slice(&args[6..]);
            let top = &mut stack[first] as *mut u64;
            let number: u64;
            unsafe {
                asm!("mov r12, rsp", "mov rsp, {top}", "call {f}", "mov rsp, r12",
                    top = in(reg) top, f = in(reg) f, out("r12") _,
                    inout("rdi") args[0] => _, inout("rsi") args[1] => _, inout("rdx") args[2] => _, inout("rcx") args[3] => _,
                    inout("r8") args[4] => _, inout("r9") args[5] => _, out("rax") number, clobber_abi("C"));
            }
            let low = stack[..first].iter().position(|w| *w != paint).unwrap_or(first);
            assert!(low > 64, "the stack is large enough");
            stack[low..].fill(paint);
            out = (number as u8, out.1.max(8 * (first - low)));
        }
        out
    }
}

/// What one table takes, in the order of `NAMES`.
type Taken = [usize; 4];
const NAMES: [&str; 4] = ["compile", "compile_with", "evaluate", "run"];

/// The most for each function, with the table that takes it.
#[derive(Default)]
struct Most([(usize, String); 4]);

impl Most {
    fn meet(&mut self, bytes: Taken, what: &str) {
        for (m, b) in self.0.iter_mut().zip(bytes) { if b > m.0 { *m = (b, what.into()) } }
    }
}

const LEAVES: [(u64, u64); 6] = [(REF, 0), (REF, 1), (INT, 5), (INT, 1 << 40), (FLOAT, FLOATS[7]), (TRUE, 0)];
/// What the two locals hold: Bools, Ints, Floats.
const LOCALS: [(u8, u64); 6] = [(1, 0), (1, 1), (2, 3), (2, 1 << 54), (3, FLOATS[7]), (3, 0x7FF8_0000_0000_0000)];

/// One table through compile, compile_with, evaluate and run, the last two on each of the locals given.
fn taken(s: &mut Stack, b: &Builder, locals: &[(u8, u64)]) -> Taken {
    let [compile, compile_with, evaluate, run, ..] = boundary::addresses();
    let j = b.job(2);
    let (t, n) = (&j.table, j.table.len() / 4);
    let mut made = Made::lend(Room { jumps: Some(n), ..Room::new(4 * n, n) });
    let mut results = [0u64; 4];
    let base = results.as_mut_ptr() as u64;
    let (code, kinds, payloads) = (made.code.part_mut(), made.kinds.part_mut(), made.payloads.part_mut());
    let mut args = vec![t.as_ptr() as u64, t.len() as u64, 2, 0, 0, code.as_mut_ptr() as u64, code.len() as u64,
        kinds.as_mut_ptr() as u64, n as u64, payloads.as_mut_ptr() as u64, n as u64];
    let plain: Vec<u64> = args.iter().copied().chain((0..4).map(|i| base + 8 * i)).collect();
    let (number, whole) = s.call(compile, &plain);
    assert!(number == 0);
    let jumps = made.jumps.as_mut().unwrap().part_mut();
    args.extend([jumps.as_mut_ptr() as u64, n as u64, base, base + 8, base + 16, base + 24]);
    let (number, with) = s.call(compile_with, &args);
    assert!(number == 0);
    let (words, frame) = (results[0], results[3] as usize);
    let mut out = [whole, with, 0, 0];
    for (kind, payload) in locals {
        let (mut ks, mut ps) = (vec![0u8; frame.max(2)], vec![0u64; frame.max(2)]);
        (ks[0], ps[0], ks[1], ps[1]) = (*kind, *payload, *kind, *payload);
        let lent = [ks.as_mut_ptr() as u64, ks.len() as u64, ps.as_mut_ptr() as u64, ps.len() as u64];
        let args = [t.as_ptr() as u64, t.len() as u64, 2, 0, lent[0], lent[1], lent[2], lent[3], base, base + 8];
        out[2] = out[2].max(s.call(evaluate, &args).1);
        let args = [code.as_ptr() as u64, words, 0, lent[0], lent[1], lent[2], lent[3], kinds.as_ptr() as u64, n as u64, payloads.as_ptr() as u64, n as u64, 99_999, base, base + 8];
        out[3] = out[3].max(s.call(run, &args).1);
    }
    out
}

/// A level of a chain: a kind, and the place of the deeper child.
type Level = (u64, usize);

/// Levels `a` and `b`: in turn, many a over one b, one a over many b.
fn level(pattern: usize, a: Level, b: Level, i: usize, of: usize) -> Level {
    let first = match pattern { 0 => i % 2 == 0, 1 => i + 1 < of, _ => i == 0 };
    if first { a } else { b }
}

fn levels() -> Vec<Level> { (MINUS..=TERNARY).flat_map(|k| (0..arity(k).unwrap()).map(move |p| (k, p))).collect() }

/// How long a chain may be: so many levels, and so many nodes.
#[derive(Clone, Copy)]
struct Limit { depth: usize, nodes: usize }

impl Limit {
    /// The longest chain of a rule for its levels.
    fn chain(&self, at: impl Fn(usize, usize) -> Level) -> Vec<Level> {
        let chain = |of: usize| (0..of).map(|i| at(i, of)).collect::<Vec<_>>();
        let fits = |c: &Vec<Level>| c.iter().map(|l| arity(l.0).unwrap()).sum::<usize>() < self.nodes;
        (0..self.depth).rev().map(chain).find(fits).unwrap()
    }
}

/// The most over chains of one kind on every leaf, of two kinds in each of the
/// three patterns, and of one to three kinds mixed at random.
fn measure(s: &mut Stack, limit: Limit, random: u64, nodes: &mut ByNodes) -> Most {
    let (mut m, mut r) = (Most::default(), Rng(limit.depth as u64));
    let mut table = |s: &mut Stack, chain: &[Level], leaf, locals: &[(u8, u64)], name: &str| {
        let b = shapes::links(chain, leaf);
        let bytes = taken(s, &b, locals);
        m.meet(bytes, name);
        nodes.meet(b.words.len() / 4, bytes, name);
    };
    for a in levels() {
        for leaf in LEAVES { table(s, &limit.chain(|_, _| a), leaf, &LOCALS, &format!("{a:?}")) }
        for b in levels().into_iter().filter(|b| *b != a) {
            for (pattern, name) in ["in turn", "over one", "once over"].iter().enumerate() {
                table(s, &limit.chain(|i, of| level(pattern, a, b, i, of)), LEAVES[0], &[], &format!("{a:?} {b:?} {name}"))
            }
        }
    }
    for _ in 0..random {
        let few: Vec<u64> = (0..1 + r.below(3)).map(|_| MINUS + r.below(21)).collect();
        let mixed: Vec<Level> = (0..limit.depth).map(|_| { let k = r.pick(&few); (k, r.below(arity(k).unwrap() as u64) as usize) }).collect();
        let (leaf, local) = (r.pick(&LEAVES), r.pick(&LOCALS));
        table(s, &limit.chain(|i, _| mixed[i]), leaf, &[local], &format!("kinds {few:?}, mixed"));
    }
    m
}

/// What docs/STACK.md tells a caller by the number of nodes, held to every table that is measured.
struct ByNodes { over: Vec<String> }

/// For each of `NAMES`: bytes whatever the table, and bytes a node; for compile also those of the jump list that it brings.
const TOLD: [(usize, usize); 4] = [(2_048, 624), (1_024, 624), (256, 240), (1_024, 0)];

/// A jump list of crates/compile: for up to so many nodes; its bytes, and what a table of so many nodes reserves at most.
struct List { nodes: usize, bytes: usize, reserve: usize }
const LISTS: [List; 4] = [List { nodes: 64, bytes: 256, reserve: 48 << 10 }, List { nodes: 512, bytes: 2_560, reserve: 192 << 10 },
    List { nodes: 4_096, bytes: 17_408, reserve: 208 << 10 }, List { nodes: MAX_NODES, bytes: 264_192, reserve: RESERVE[0] }];

impl ByNodes {
    fn bound(n: usize) -> Taken {
        let mut told = TOLD.map(|(all, each)| all + each * n);
        let list = LISTS.iter().find(|l| n <= l.nodes).unwrap();
        told[0] = (told[0] + list.bytes).min(list.reserve);
        for (t, r) in told.iter_mut().zip(RESERVE) { *t = r.min(*t) }
        told
    }
    fn meet(&mut self, n: usize, bytes: Taken, what: &str) {
        for (i, (b, most)) in bytes.into_iter().zip(Self::bound(n)).enumerate() {
            if b > most { self.over.push(format!("{}: {n} nodes, {what}: {b} bytes, and {most} are told", NAMES[i])) }
        }
    }
}

/// A function of the linked program: its greatest depth of stack, the return
/// address included, and the depth at which it calls each other one.
#[derive(Default)]
struct Frame { most: i64, calls: BTreeMap<String, i64> }

/// Reads a disassembly from top to bottom. What follows a return or a jump
/// is taken to stand at the depth of the function's body.
fn read_frames() -> BTreeMap<String, Frame> {
    let mut all: BTreeMap<String, Frame> = BTreeMap::new();
    let (mut name, mut now, mut body, mut taken, mut pages) = (String::new(), 8, 8, false, None);
    for line in std::io::stdin().lock().lines().map(|l| l.unwrap()) {
        if let Some((_, n)) = line.strip_suffix(">:").and_then(|l| l.split_once('<')) { (name, now, body, taken) = (n.into(), 8, 8, false); all.entry(n.into()).or_default(); continue }
        let Some((_, insn)) = line.split_once(":\t") else { continue };
        let f = all.entry(name.clone()).or_default();
        let imm = |s: &str| i64::from_str_radix(s.trim_start_matches("$0x").split(',').next().unwrap(), 16).unwrap_or_else(|_| u64::from_str_radix(&s[3..s.find(',').unwrap()], 16).unwrap() as i64);
        let (op, rest) = insn.split_once(' ').map_or((insn, ""), |(o, r)| (o, r.trim()));
        match op {
            "push" => { now += 8; if !taken { body = now } }
            "pop" => now -= 8,
            // a large array is taken page by page, in a loop down to %r11
            "mov" if rest == "%rsp,%r11" => pages = Some(0),
            "sub" if rest.ends_with(",%r11") && pages == Some(0) => pages = Some(imm(rest)),
            "sub" if rest.ends_with(",%rsp") => { (now, taken) = (now + pages.take().unwrap_or_else(|| imm(rest)), true); body = body.max(now) }
            "add" if rest.ends_with(",%rsp") => now -= imm(rest),
            _ => {}
        }
        f.most = f.most.max(now);
        if let Some(to) = rest.split_once('<').map(|t| t.1.trim_end_matches('>')).filter(|t| op == "call" || op == "jmp" && !t.contains("+0x")) {
            let d = f.calls.entry(to.into()).or_default();
            *d = (*d).max(if op == "call" { now } else { 0 });
        }
        if op == "ret" || op == "jmp" { now = body }
    }
    all
}

/// The deepest way from a function, none where it comes back to itself.
fn deepest(all: &BTreeMap<String, Frame>, f: &str, over: &mut Vec<String>) -> Option<(i64, Vec<String>)> {
    let Some(frame) = all.get(f) else { return Some((8, vec![f.into()])) };
    if over.iter().any(|o| o == f) { return None }
    over.push(f.into());
    let mut best = (frame.most, vec![]);
    for (to, at) in &frame.calls {
        let (d, way) = deepest(all, to, over)?;
        if at + d > best.0 { best = (at + d, way) }
    }
    over.pop();
    best.1.insert(0, f.into());
    Some(best)
}

fn frames() {
    let all = read_frames();
    let mut reached: Vec<String> = all.keys().filter(|n| n.starts_with("vosemaqe_")).cloned().collect();
    let roots = reached.clone();
    let mut i = 0;
    while i < reached.len() {
        if let Some(f) = all.get(&reached[i]) { for to in f.calls.keys() { if !reached.contains(to) { reached.push(to.clone()) } } }
        i += 1;
    }
    reached.sort_by_key(|n| all.get(n).map_or(0, |f| -f.most));
    for n in reached { if let Some(f) = all.get(&n) { println!("{:6} {n}", f.most) } }
    let mut over = 0;
    for r in &roots {
        let most = match deepest(&all, r, &mut vec![]) {
            Some((bytes, way)) => { println!("{r}: no recursion, {bytes} bytes at most: {}", way.join(" > ")); bytes }
            None => {
                let cycles = cycles(&all, r);
                let bytes = bound(&all, &cycles, r);
                for c in &cycles { println!("{r}: at most {} times: {} ({} bytes)", c.times, c.names.join(" + "), c.bytes(&all)) }
                println!("{r}: {bytes} bytes at most");
                bytes
            }
        };
        // what is not named reserves as much as a run
        let told = RESERVE[NAMES.iter().position(|n| *r == format!("vosemaqe_{n}")).unwrap_or(3)];
        if most > told as i64 { println!("{r}: more than the {told} that a caller reserves"); over += 1 }
    }
    runner::finish(format!("frames: {} functions, {over} over what docs/STACK.md tells a caller", roots.len()), over)
}

/// Functions that call one another, and how often each can be under way at
/// once. Of the rules and the evaluator each comes at most once a level, since
/// the measure that is proved to fall is made of depth and rule; the choice of a
/// jump list calls itself for 64, 512, 4,096 and 32,768 nodes.
struct Cycle { names: Vec<String>, times: i64 }

impl Cycle {
    fn bytes(&self, all: &BTreeMap<String, Frame>) -> i64 { self.names.iter().map(|f| all[f].most).sum() }
}

/// The cycles that a function reaches.
fn cycles(all: &BTreeMap<String, Frame>, root: &str) -> Vec<Cycle> {
    let reaches = |from: &str| {
        let mut seen: Vec<&String> = vec![];
        let mut todo: Vec<&String> = all[from].calls.keys().collect();
        while let Some(f) = todo.pop() {
            if seen.contains(&f) { continue }
            seen.push(f);
            if let Some(frame) = all.get(f) { todo.extend(frame.calls.keys()) }
        }
        seen.into_iter().cloned().collect::<Vec<_>>()
    };
    let mut out: Vec<Cycle> = vec![];
    for f in reaches(root).into_iter().filter(|f| all.contains_key(f) && reaches(f).contains(f)) {
        if out.iter().any(|c| c.names.contains(&f)) { continue }
        let names: Vec<String> = reaches(&f).into_iter().filter(|g| all.contains_key(g) && reaches(g).contains(&f)).collect();
        let times = if names == ["compile::listed"] { 4 } else { MAX_DEPTH as i64 };
        out.push(Cycle { names, times })
    }
    out
}

/// The most that a function takes, with each cycle as often as it can come.
fn bound(all: &BTreeMap<String, Frame>, cycles: &[Cycle], f: &str) -> i64 {
    let Some(frame) = all.get(f) else { return 8 };
    let Some(c) = cycles.iter().find(|c| c.names.iter().any(|n| n == f)) else {
        return frame.calls.iter().map(|(to, at)| at + bound(all, cycles, to)).max().unwrap_or(0).max(frame.most)
    };
    let out = c.names.iter().flat_map(|g| all[g].calls.iter().filter(|call| !c.names.contains(call.0)).map(move |(to, at)| (g, to, at)));
    let below = out.map(|(g, to, at)| at - all[g].most + bound(all, cycles, to)).max().unwrap_or(0).max(0);
    c.times * c.bytes(all) + below
}

/// What docs/STACK.md tells a caller to reserve, in the order of `NAMES`.
const RESERVE: Taken = [448 << 10, 188 << 10, 48 << 10, 1 << 10];

/// A chain as deep as may be that takes most of compile_with: comparisons, to
/// the right, over one And.
fn deepest_chain(s: &mut Stack) -> Vec<Level> {
    let of = MAX_DEPTH as usize - 1;
    let chains = levels().into_iter().map(|a| (0..of).map(|i| level(1, a, (AND, 0), i, of)).collect::<Vec<_>>());
    chains.max_by_key(|c| taken(s, &shapes::links(c, LEAVES[0]), &[])[1]).unwrap()
}

fn main() {
    if std::env::args().nth(1).as_deref() == Some("frames") { return frames() }
    let [random] = runner::numbers([3_000]);
    let (mut s, mut nodes) = (Stack::new(64), ByNodes { over: vec![] });
    let mut rows: Vec<(String, Most)> = vec![];
    for n in [1, 2, 4, 8, 16, 32, 64] {
        rows.push((format!("{n} nodes"), measure(&mut s, Limit { depth: 64, nodes: n }, random, &mut nodes)));
    }
    let mut deep = Stack::new(256);
    for depth in [1, 16, 64, MAX_DEPTH as usize] {
        let stack = if depth > 16 { &mut deep } else { &mut s };
        rows.push((format!("depth {depth}"), measure(stack, Limit { depth, nodes: MAX_NODES }, random, &mut nodes)));
    }
    // the deepest chain for compile_with, in tables of as many nodes as each jump list is for
    let chain = deepest_chain(&mut deep);
    let mut wide = Stack::new(640);
    for n in LISTS.map(|l| l.nodes).into_iter().skip(1) {
        let mut most = Most::default();
        let full = [OR, LT, TERNARY].map(|kind| (shapes::full(kind, n), format!("kind {kind}")));
        for (b, name) in full.into_iter().chain([(shapes::beside(&chain, n), "the deepest chain beside a shallow tree".into())]) {
            let bytes = taken(&mut wide, &b, &LOCALS);
            most.meet(bytes, &name);
            nodes.meet(n, bytes, &name);
        }
        rows.push((format!("{n} nodes"), most));
    }
    println!("the most for each row, and the chain that takes it; a level is (kind, place of the deeper child)");
    println!("{:<10} {}", "bytes", NAMES.map(|n| format!("{n:>13}")).join(""));
    for (name, most) in &rows {
        println!("{name:<10} {}", most.0.iter().map(|m| format!("{:>13}", m.0)).collect::<String>());
        for (i, m) in most.0.iter().enumerate() { println!("  {:<13} {}", NAMES[i], m.1) }
    }
    for o in nodes.over.iter().take(20) { println!("{o}") }
    runner::finish(format!("stack: {} over what docs/STACK.md tells a caller", nodes.over.len()), nodes.over.len())
}
