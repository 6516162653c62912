//! Nanoseconds a node of a compile: the house-mode Rust from the same tables
//! (check, tree, generator), the Rust's generator alone with its tree at hand,
//! and the proved library through its boundary, which checks the table and
//! generates; in turns in one process, the best of several rounds.
//!     compile_speed [rounds]
use boundary::{shapes, Made, Room};
use std::hint::black_box;
use std::time::Instant;
use tables::gen::{tree, Rng, Shape};
use tables::*;

/// The Rust's whole way from a table to words; its tree is dropped.
fn rust(h: &mut house::Oracle, fun: &house::ast::Function, j: &Job) {
    assert!(check(&j.table, j.params, j.locals, j.dst) == 0);
    let t = house::tree(&j.table, j.params as u32);
    h.clear(usize::MAX, usize::MAX);
    black_box(h.emit(&t, fun, None));
}

/// The Rust's generator alone.
fn generator(h: &mut house::Oracle, fun: &house::ast::Function, t: &house::ast::ExprBox) {
    h.clear(usize::MAX, usize::MAX);
    black_box(h.emit(t, fun, None));
}

/// A lent set of buffers for each job, or one for all.
struct Way { name: &'static str, lent: Vec<Made> }

/// Prints ns a node of the Rust and of its generator alone, then ns and the
/// ratio to the Rust for each way of lending, the first also to its generator.
fn measure(name: &str, jobs: &[Job], rounds: u64) { measure_by(name, jobs, rounds, false) }

/// The same; `indexed`: the Rust finds equal constants by a hash map, not by a search.
fn measure_by(name: &str, jobs: &[Job], rounds: u64, indexed: bool) {
    let mut h = house::Oracle::new();
    if indexed { h.actor.index = Some(Default::default()) }
    let fun = house::function(jobs[0].params as u32, jobs[0].locals as u32);
    let nodes: usize = jobs.iter().map(|j| j.table.len() / 4).sum();
    let made: Vec<_> = jobs.iter().map(|j| h.compile(j).expect("an accepted job")).collect();
    let trees: Vec<_> = jobs.iter().map(|j| house::tree(&j.table, j.params as u32)).collect();
    let rooms = |f: &dyn Fn(usize, &Compiled) -> Room| jobs.iter().zip(&made).map(|(j, c)| Made::lend(f(j.table.len() / 4, c))).collect();
    let mut ways: [Way; 4] = [
        Way { name: "tight", lent: rooms(&|_, c| Room::new(c.words.len(), c.consts.len())) },
        Way { name: "4 words, 1 slot a node", lent: rooms(&|n, _| Room::new(4 * n, n)) },
        Way { name: "for 4,096 nodes", lent: vec![Made::lend(Room::new(4 * 4_096, 4_096))] },
        Way { name: "tight, jumps lent", lent: rooms(&|n, c| Room { jumps: Some(n.div_ceil(2)), ..Room::new(c.words.len(), c.consts.len()) }) },
    ];
    // short turns, so that some of them are not interrupted
    let repeat = (6_000 / nodes).max(1);
    let mut best = [f64::MAX; 6];
    for _ in 0..rounds {
        for (i, b) in best.iter_mut().enumerate() {
            let t = Instant::now();
            for _ in 0..repeat {
                for k in 0..jobs.len() {
                    match i {
                        0 => rust(&mut h, &fun, &jobs[k]),
                        1 => generator(&mut h, &fun, black_box(&trees[k])),
                        _ => { let l = &mut ways[i - 2].lent; let n = l.len(); l[k % n].compile(black_box(&jobs[k])) }
                    }
                }
            }
            *b = b.min(t.elapsed().as_nanos() as f64 / (repeat * nodes) as f64);
        }
    }
    for w in &ways { for (m, c) in w.lent.iter().rev().zip(made.iter().rev()) { assert!(m.is(&Ok(c.clone())), "{name}, {}: another answer", w.name) } }
    let words: usize = made.iter().map(|c| c.words.len()).sum();
    print!("{name:<34} {:5.2} {:7.1} {:7.1}", words as f64 / nodes as f64, best[0], best[1]);
    for t in &best[2..] { print!(" {t:8.1} {:5.2}", t / best[0]) }
    println!(" {:8.2}", best[2] / best[1]);
}

fn random(nodes: usize, typed: u64, n: u64) -> Vec<Job> {
    (0..n).map(|i| {
        let table = tree(&mut Rng(1000 + i), Shape { nodes, depth: MAX_DEPTH, base: 4, typed });
        Job { table, params: 2, locals: 2, dst: None, max_words: usize::MAX, max_slots: usize::MAX }
    }).collect()
}

fn main() {
    let [rounds] = runner::numbers([200]);
    runner::quiet();
    println!("ns a node, and the ratio to the Rust    words    Rust  alone   tight        4w 1s a node     any table     tight, jumps lent  tight to generator alone");
    for typed in [0, 97] {
        for (nodes, n) in [(10, 300), (30, 100), (64, 60), (65, 60), (100, 40), (300, 20), (1_000, 12), (2_000, 6), (4_096, 4)] {
            measure(&format!("{nodes} nodes, {}", if typed == 0 { "any kinds" } else { "kinds that fit" }), &random(nodes, typed, n), rounds);
        }
    }
    for (name, b) in [
        ("Or over 2,048 Refs", shapes::junctions(2_048, OR)),
        ("4,095 nodes of Ternary", shapes::full(TERNARY, 4_095)),
        ("4,095 nodes of Lt", shapes::full(LT, 4_095)),
        ("4,095 nodes of Add", shapes::full(ADD, 4_095)),
        ("64 levels of Or, to the right", shapes::chain(OR, 1, 64, (REF, 0))),
        ("64 levels of Lt, to the right", shapes::chain(LT, 1, 64, (REF, 0))),
        ("64 levels of Ternary, tests", shapes::chain(TERNARY, 0, 64, (REF, 0))),
    ] {
        measure(name, &[b.job(4)], rounds);
    }
    // constants that are all distinct: the search for an equal slot is as long as it can be
    for leaves in [64, 512, 2_048] {
        let job = [shapes::distinct(leaves).job(4)];
        measure(&format!("{} distinct Floats", leaves), &job, rounds);
        measure_by("  the Rust with a hash map", &job, rounds, true);
    }
}
