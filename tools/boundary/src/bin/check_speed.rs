//! Nanoseconds a node of a check: document 01's in plain Rust (the oracle's)
//! and the proved one through its boundary, on the same tables; in turns in
//! one process, the best of several rounds. Every answer is compared, also of
//! tables that are damaged in one word.
//!     check_speed [rounds]
//!     check_speed once rust|proved|neither    one pass over the random tables, untimed; prints their nodes
use boundary::shapes;
use std::hint::black_box;
use std::time::Instant;
use tables::gen::{tree, Rng, Shape};
use tables::*;

/// A limit as the header has it.
fn limit(name: &str) -> u64 {
    let mut lines = include_str!("../../../../include/vosemaqe.h").lines();
    lines.find_map(|l| l.strip_prefix("#define ")?.strip_prefix(name)).expect("the header has the limit").trim().parse().expect("a number")
}

fn rust(j: &Job) -> u8 { check(black_box(&j.table), j.params, j.locals, j.dst) }
fn proved(j: &Job) -> u8 { boundary::check(black_box(j)) }
/// What a pass takes that checks nothing.
fn neither(j: &Job) -> u8 { black_box(j); 0 }

/// Refusals of the same tables with one word spoiled, by number.
fn damaged(jobs: &[Job], seen: &mut [usize; 6]) {
    let mut r = Rng(7);
    for j in jobs {
        for _ in 0..(20_000 / jobs.len()).min(50) {
            let mut j = j.clone();
            let at = r.below(j.table.len() as u64) as usize;
            let x = j.table[at];
            j.table[at] = match r.below(7) { 0 => x.wrapping_add(1), 1 => x.wrapping_sub(1), 2 => 0, 3 => 1, 4 => u64::MAX, 5 => r.below(30), _ => r.next() };
            let want = rust(&j);
            assert!(proved(&j) == want, "another number than {want}");
            seen[want as usize] += 1;
        }
    }
}

fn measure(name: &str, jobs: &[Job], rounds: u64) {
    let nodes: usize = jobs.iter().map(|j| j.table.len() / 4).sum();
    // short turns, so that some of them are not interrupted
    let repeat = (6_000 / nodes).max(1);
    let mut best = [f64::MAX; 2];
    for _ in 0..rounds {
        for (b, way) in best.iter_mut().zip([rust, proved]) {
            let t = Instant::now();
            for _ in 0..repeat { for j in jobs { assert!(way(j) == 0, "{name}: refused") } }
            *b = b.min(t.elapsed().as_nanos() as f64 / (repeat * nodes) as f64);
        }
    }
    println!("{name:<34} {:7.2} {:7.2} {:6.2}", best[0], best[1], best[1] / best[0]);
}

fn random(nodes: usize, typed: u64, n: u64) -> Vec<Job> {
    let depth = limit("VOSEMAQE_MAX_DEPTH");
    (0..n).map(|i| {
        let table = tree(&mut Rng(1000 + i), Shape { nodes, depth, base: 4, typed });
        Job { table, params: 2, locals: 2, dst: None, max_words: 0, max_slots: 0 }
    }).collect()
}

fn main() {
    let most = limit("VOSEMAQE_MAX_NODES") as usize;
    let sizes = [(10, 300), (1_000, 12), (most, 4)];
    let args: Vec<String> = std::env::args().skip(1).collect();
    if let [once, way] = &args[..] {
        assert!(once == "once");
        let way = match &way[..] { "rust" => rust, "proved" => proved, _ => neither };
        let jobs: Vec<Job> = sizes.iter().flat_map(|s| random(s.0, 0, s.1)).collect();
        for j in &jobs { assert!(way(j) == 0) }
        println!("{}", jobs.iter().map(|j| j.table.len() / 4).sum::<usize>());
        return;
    }
    let [rounds] = runner::numbers([300]);
    let mut seen = [0; 6];
    println!("nanoseconds a node                    Rust  proved  ratio");
    for typed in [0, 97] {
        for (nodes, n) in sizes {
            let jobs = random(nodes, typed, n);
            damaged(&jobs, &mut seen);
            measure(&format!("{nodes} nodes, {}", if typed == 0 { "any kinds" } else { "kinds that fit" }), &jobs, rounds);
        }
    }
    let depth = limit("VOSEMAQE_MAX_DEPTH");
    for (name, b) in [
        (format!("{depth} levels of Minus"), shapes::chain(MINUS, 0, depth, (REF, 0))),
        (format!("{depth} levels of Add, to the left"), shapes::chain(ADD, 0, depth, (REF, 0))),
        (format!("{depth} levels of Add, to the right"), shapes::chain(ADD, 1, depth, (REF, 0))),
        ("4,095 nodes of Add".into(), shapes::full(ADD, 4_095)),
        ("4,095 nodes of Ternary".into(), shapes::full(TERNARY, 4_095)),
    ] {
        let jobs = [b.job(4)];
        damaged(&jobs, &mut seen);
        measure(&name, &jobs, rounds);
    }
    println!("damaged tables: {} with no fault, then by number 1 to 5: {:?}", seen[0], &seen[1..]);
}
