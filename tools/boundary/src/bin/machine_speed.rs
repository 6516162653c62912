//! Nanoseconds a step: the proved machine through its boundary against
//! document 01's machine written plainly in Rust (`tables::meaning`), in
//! turns in one process, the best of several rounds. Both must leave the same
//! report and the same registers.
//!     machine_speed [rounds]
use std::hint::black_box;
use std::time::Instant;
use tables::gen::{tree, Rng, Shape};
use tables::meaning::{run_lent, Ran, V};
use tables::opcodes::{pack, OPCODES};
use tables::*;

struct Run { name: String, words: Vec<u64>, slots: Vec<(u8, u64)>, regs: Vec<(u8, u64)>, budget: u64 }

fn measure(r: &Run, rounds: u64) {
    let (sk, sp): (Vec<u8>, Vec<u64>) = r.slots.iter().copied().unzip();
    let (k, p): (Vec<u8>, Vec<u64>) = r.regs.iter().copied().unzip();
    let mut left: [(Option<Ran>, Vec<u8>, Vec<u64>); 2] = [(None, k.clone(), p.clone()), (None, k.clone(), p.clone())];
    let mut best = [f64::MAX; 2];
    let mut repeat = 1;
    for round in 0..rounds {
        for (i, (ran, ks, ps)) in left.iter_mut().enumerate() {
            let (t, mut steps) = (Instant::now(), 0);
            for _ in 0..repeat {
                ks.copy_from_slice(&k);
                ps.copy_from_slice(&p);
                let (words, budget) = (black_box(&r.words), r.budget);
                let now = if i == 0 { boundary::run(words, 0, ks, ps, &sk, &sp, budget) } else { run_lent(words, 0, ks, ps, &sk, &sp, budget) };
                steps += now.steps;
                *ran = Some(now);
            }
            best[i] = best[i].min(t.elapsed().as_nanos() as f64 / steps as f64);
            if round == 0 { repeat = (4_000 / now_steps(ran)).max(1) }
        }
    }
    assert!(left[0] == left[1], "{}: another outcome", r.name);
    println!("{:<44} {:8.2} {:8.2} {:6.2}", r.name, best[0], best[1], best[0] / best[1]);
}

fn now_steps(r: &Option<Ran>) -> u64 { r.unwrap().steps.max(1) }

/// A compiled tree, on the first locals that it ends on without a fault.
fn compiled(nodes: usize) -> Run {
    let mut h = house::Oracle::new();
    for seed in 0.. {
        let mut r = Rng(seed);
        let table = tree(&mut r, Shape { nodes, depth: MAX_DEPTH, base: 6, typed: 100 });
        let c = h.compile(&Job { table: table.clone(), ..Builder::default().job(6) }).unwrap();
        let mut regs: Vec<(u8, u64)> = (0..c.frame as u64).map(|i| if i < 6 { runner::local(&mut r, &table, i) } else { V::Nil }.pair()).collect();
        let lent = regs.clone();
        let (mut k, mut p): (Vec<u8>, Vec<u64>) = regs.drain(..).unzip();
        let (sk, sp): (Vec<u8>, Vec<u64>) = c.consts.iter().copied().unzip();
        let ran = run_lent(&c.words, 0, &mut k, &mut p, &sk, &sp, u64::MAX);
        if ran.number == 0 && ran.steps as usize * 3 > nodes { return Run { name: format!("a tree of {nodes} nodes, {} steps", ran.steps), words: c.words, slots: c.consts, regs: lent, budget: u64::MAX } }
    }
    unreachable!()
}

fn main() {
    let [rounds] = runner::numbers([200]);
    let w = |name: &str, v: &[i64]| pack(OPCODES.iter().position(|o| o.0 == name).unwrap(), v, false).unwrap();
    let f = |x: f64| (3, x.to_bits());
    let run = |name: &str, words: Vec<u64>, regs: &[(u8, u64)], budget| Run { name: name.into(), words, slots: vec![], regs: regs.to_vec(), budget };
    println!("{:<44} {:>8} {:>8} {:>6}", "ns a step", "proved", "Rust", "ratio");
    measure(&run("loop of six", vec![w("add_imm16", &[0, 0, 1]), w("add", &[1, 1, 2]), w("mov", &[3, 1]), w("jlt_imm16", &[4, 100, 0]), w("mov", &[5, 0]), w("jmp", &[-6])],
        &[(2, 0), f(1.0), f(1.5), (0, 0), (2, 7), (0, 0)], 4_000), rounds);
    let lt = vec![w("jnlt", &[0, 1, 2]), w("load_imm40", &[2, 4]), w("jmp", &[1]), w("load_imm40", &[2, 8])];
    measure(&run("a < b ? 1 : 2, on Ints", lt.clone(), &[(2, 3), (2, 4), (0, 0)], 9), rounds);
    measure(&run("a < b ? 1 : 2, on Floats", lt, &[f(3.0), f(2.0), (0, 0)], 9), rounds);
    measure(&run("a * b - a, on Ints", vec![w("mul", &[2, 0, 1]), w("sub", &[2, 2, 0])], &[(2, 123_456), (2, 789), (0, 0)], 9), rounds);
    measure(&run("a + b, an Int and a Float", vec![w("add", &[2, 0, 1])], &[(2, 3), f(0.5), (0, 0)], 9), rounds);
    for nodes in [30, 300] { measure(&compiled(nodes), rounds) }
}
