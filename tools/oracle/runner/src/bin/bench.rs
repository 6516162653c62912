//! Nanoseconds per node of the house-mode Rust. Four figures:
//!   emit   the given generator alone, tree at hand, stores with room
//!   fresh  the same with new empty stores each time (they grow)
//!   whole  check, tree built from the table, emit, tree dropped
//!   check  the check alone
use std::hint::black_box;
use std::time::Instant;
use tables::gen::{tree, Rng, Shape};
use tables::*;

fn time(per_run: usize, runs: usize, nodes: usize, mut f: impl FnMut()) -> String {
    for _ in 0..per_run / 4 + 1 { f() }
    let mut ns: Vec<f64> = (0..runs).map(|_| {
        let t = Instant::now();
        for _ in 0..per_run { f() }
        t.elapsed().as_nanos() as f64 / (per_run * nodes) as f64
    }).collect();
    ns.sort_by(|a, b| a.total_cmp(b));
    format!("least {:6.2}  median {:6.2}  most {:6.2}", ns[0], ns[runs / 2], ns[runs - 1])
}

fn main() {
    for (size, tables_n, per_run) in [(10, 300, 40), (1_000, 20, 8), (4_096, 5, 8), (60_000, 2, 1)] {
        for typed in [0, 97] {
            let jobs: Vec<Job> = (0..tables_n).map(|i| {
                let table = tree(&mut Rng(1000 + i), Shape { nodes: size, depth: MAX_DEPTH, base: 4, typed });
                Job { table, params: 2, locals: 2, dst: None, max_words: usize::MAX, max_slots: usize::MAX }
            }).collect();
            let fun = house::function(2, 2);
            let trees: Vec<_> = jobs.iter().map(|j| house::tree(&j.table, 2)).collect();
            let total = size * tables_n as usize;
            let mut o = house::Oracle::new();
            let words: usize = jobs.iter().map(|j| o.compile(j).unwrap().words.len()).sum();
            println!("{size} nodes, typed {typed}: {:.2} words per node", words as f64 / total as f64);
            println!("  emit   {}", time(per_run, 15, total, || for t in &trees {
                o.clear(usize::MAX, usize::MAX);
                black_box(o.emit(t, &fun, None));
            }));
            println!("  fresh  {}", time(per_run, 15, total, || for t in &trees {
                let a = &mut o.actor;
                (a.insns, a.consts) = (vec![], vec![]);
                black_box(o.emit(t, &fun, None));
            }));
            println!("  whole  {}", time(per_run, 15, total, || for j in &jobs {
                assert!(check(&j.table, 2, 2, None) == 0);
                let t = house::tree(&j.table, 2);
                o.clear(usize::MAX, usize::MAX);
                black_box(o.emit(&t, &fun, None));
            }));
            println!("  check  {}", time(per_run, 15, total, || for j in &jobs { black_box(check(&j.table, 2, 2, None)); }));
        }
    }
}
