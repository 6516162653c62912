//! Does running the house words give the tree's value? Random jobs, random
//! locals, document 01's evaluator against its machine.
//!     meaning [jobs] [seed]
use runner::local;
use std::collections::BTreeMap;
use tables::gen::{good, Rng};
use tables::meaning::{eval, run, V};

fn main() {
    let [jobs, seed] = runner::numbers([20_000, 1]);
    runner::quiet();
    let mut h = house::Oracle::new();
    let mut r = Rng(seed);
    let mut ends: BTreeMap<u8, usize> = BTreeMap::new();
    let (mut bad, mut runs) = (0, 0);
    for _ in 0..jobs {
        let mut job = good(&mut r, 300);
        (job.max_words, job.max_slots) = (usize::MAX, usize::MAX);
        let Ok(c) = h.compile(&job) else { continue };
        let slots: Vec<V> = c.consts.iter().map(|p| V::from_pair(*p).unwrap()).collect();
        for _ in 0..4 {
            let mut locals: Vec<V> = vec![V::Nil; job.base() as usize];
            for (i, l) in locals.iter_mut().take(8).enumerate() { *l = local(&mut r, &job.table, i as u64) }
            if let Some(l) = locals.last_mut() { *l = local(&mut r, &job.table, job.base() - 1) }
            let want = eval(&job.table, &locals);
            let mut regs = locals.clone();
            while regs.len() < c.frame as usize { regs.push(local(&mut r, &job.table, 0)) }
            let ran = run(&c.words, &slots, &mut regs, 0, c.words.len() as u64);
            runs += 1;
            *ends.entry(ran.number).or_default() += 1;
            let value = match want {
                Ok(v) => ran.number == 0 && regs[c.reg as usize] == v && ran.pos == c.words.len() as u64,
                Err(n) => ran.number == n,
            };
            let kept = locals.iter().enumerate().all(|(i, l)| regs[i] == *l || ran.number == 0 && job.dst == Some(i as u64));
            if !value || !kept {
                bad += 1;
                println!("FAIL {job:?}\n locals {:?}\n evaluated {want:?}, run {ran:?} {:?}", &locals[..locals.len().min(8)], regs.get(c.reg as usize));
            }
        }
    }
    println!("ended, by number: {ends:?}");
    runner::finish(format!("meaning: {runs} runs, {bad} differ"), bad);
}
