//! Every tree of up to N nodes over a few leaves: published against house,
//! and house words run against the evaluator.   small [nodes]
use runner::rewrite;
use tables::meaning::{eval, run, V};
use tables::small::{trees, LEAVES};

fn main() {
    let [size] = runner::numbers([4]);
    runner::quiet();
    let (mut p, mut h) = (published::Oracle::new(), house::Oracle::new());
    let locals = [[V::Int(7), V::Int(-3)], [V::Bool(true), V::Bool(false)], [V::Float(f64::NAN), V::Float(2.5)], [V::Int(i64::MIN), V::Int(1)]];
    let (mut count, mut bad) = (0, 0);
    for n in 1..=size as usize {
        trees(n, &LEAVES, &mut |b| for dst in [None, Some(1)] {
            let mut job = b.job(2);
            job.dst = dst;
            count += 1;
            let (a, c) = (p.compile(&job).unwrap(), h.compile(&job).unwrap());
            let mut good = rewrite(&a, true, &mut vec![]).as_ref() == Some(&c);
            let slots: Vec<V> = c.consts.iter().map(|p| V::from_pair(*p).unwrap()).collect();
            for l in locals {
                let mut regs = vec![V::Nil; c.frame as usize];
                regs[..2].copy_from_slice(&l);
                let ran = run(&c.words, &slots, &mut regs, 0, c.words.len() as u64);
                good &= match eval(&job.table, &l) {
                    Ok(v) => ran.number == 0 && regs[c.reg as usize] == v,
                    Err(e) => ran.number == e && regs[..2] == l,
                } && regs[0] == l[0] && (dst.is_some() || regs[1] == l[1]);
            }
            if !good { bad += 1; println!("FAIL {job:?}") }
        });
    }
    runner::finish(format!("small: {count} jobs of up to {size} nodes, {bad} bad"), bad);
}
