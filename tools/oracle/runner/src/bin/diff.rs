//! Runs both modes on random jobs. The published answer, rewritten by the
//! known differences, must be the house answer to the last bit; each
//! difference is counted, with the smallest table that shows it.
//!     diff [jobs] [seed]
use runner::explained;
use std::collections::BTreeMap;
use tables::gen::{damage, good, Rng};
use tables::opcodes::{decode, OPCODES};
use tables::*;

fn main() {
    let [jobs, seed] = runner::numbers([20_000, 1]);
    runner::quiet();
    let (mut p, mut h) = (published::Oracle::new(), house::Oracle::new());
    let mut r = Rng(seed);
    let mut classes: BTreeMap<&str, (usize, Job)> = BTreeMap::new();
    let mut refused: BTreeMap<u8, usize> = BTreeMap::new();
    let mut used = [0usize; 77];
    let (mut accepted, mut nodes, mut words, mut unexplained) = (0, 0, 0, 0);
    let (mut most_words, mut farthest) = (0.0f64, 0i64);
    for i in 0..jobs {
        let mut job = good(&mut r, 4_096);
        if i % 3 == 2 { job = damage(&mut r, &job) }
        let (a, b) = (p.compile(&job), h.compile(&job));
        let mut seen = vec![];
        match &b {
            Ok(b) => {
                accepted += 1;
                let n = job.table.len() / 4;
                nodes += n;
                words += b.words.len();
                most_words = most_words.max(b.words.len() as f64 / n as f64);
                for w in &b.words {
                    let (op, v) = decode(*w).expect("a house word decodes");
                    used[op] += 1;
                    if OPCODES[op].1.last().unwrap().is_disp() { farthest = farthest.max(*v.last().unwrap()) }
                }
            }
            Err(Refused(n)) => *refused.entry(*n).or_default() += 1,
        }
        if !explained(&mut h, &job, &a, &b, &mut seen) {
            unexplained += 1;
            println!("FAIL {job:?}\n  published {a:?}\n  house     {b:?}");
        }
        seen.sort();
        seen.dedup();
        for s in seen {
            let e = classes.entry(s).or_insert((0, job.clone()));
            e.0 += 1;
            if job.table.len() < e.1.table.len() { e.1 = job.clone() }
        }
    }
    println!("{accepted} accepted with {nodes} nodes, {words} words; refused, by number: {refused:?}");
    println!("most words per node {most_words:.2}, farthest displacement {farthest}, opcodes emitted: {}", used.iter().filter(|n| **n > 0).count());
    for (name, (n, j)) in classes {
        println!("{name}: {n} jobs, smallest {:?} params {} locals {} dst {:?}", j.table, j.params, j.locals, j.dst);
    }
    runner::finish(format!("diff: {jobs} jobs, {unexplained} unexplained"), unexplained);
}
