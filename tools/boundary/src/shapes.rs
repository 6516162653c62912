//! Trees that go to a limit.
use tables::*;

/// A chain of one kind, `depth` levels deep, whose other children are the
/// leaf; the deeper child stands in the given place.
pub fn chain(kind: u64, place: usize, depth: u64, leaf: (u64, u64)) -> Builder {
    links(&vec![(kind, place); depth as usize - 1], leaf)
}

/// Add over so many Floats, a power of 2, all distinct.
pub fn distinct(leaves: u64) -> Builder {
    let mut b = Builder::default();
    for i in 0..leaves {
        b.float(i as f64 + 0.1);
        for _ in 0..(i + 1).trailing_zeros() { b.op(ADD); }
    }
    b
}

/// And or Or over so many Refs, as shallow as can be: a jump for each.
pub fn junctions(refs: u64, kind: u64) -> Builder {
    let mut b = Builder::default();
    for i in 0..refs {
        b.reg(i % 3);
        for _ in 0..(i + 1).trailing_zeros() { b.op(kind); }
    }
    b
}

/// Or over so many terms (a < b) == (c < d), of 7 nodes each, as shallow as can
/// be: each term takes more words than any other that can be a test, and its
/// jump goes over all that follow.
pub fn equal_tests(terms: u64) -> Builder {
    let mut b = Builder::default();
    for i in 0..terms {
        b.reg(0).reg(1).op(LT).reg(0).reg(1).op(LT).op(EQ);
        for _ in 0..(i + 1).trailing_zeros() { b.op(OR); }
    }
    b
}

/// A shallow tree of exactly so many nodes, of one operator and of Not where
/// that does not come out even.
pub fn full(kind: u64, nodes: usize) -> Builder {
    let mut b = Builder::default();
    grow(&mut b, kind, nodes);
    b
}

fn grow(b: &mut Builder, kind: u64, nodes: usize) {
    let a = arity(kind).unwrap();
    if nodes == 1 { b.reg(nodes as u64 % 2); return }
    if nodes <= a { grow(b, kind, nodes - 1); b.op(NOT); return }
    for c in 0..a { grow(b, kind, (nodes - 1 + c) / a) }
    b.op(kind);
}

/// Eq of a shallow tree of Add and a chain, of so many nodes in all; the chain
/// is without its first level, in place of which Eq stands.
pub fn beside(levels: &[(u64, usize)], nodes: usize) -> Builder {
    let chain = links(&levels[1..], (REF, 0));
    let mut b = full(ADD, nodes - 1 - chain.words.len() / 4);
    for node in chain.words.chunks(4) { b.node(node[0], node[1]); }
    b.op(EQ);
    b
}

/// A chain whose levels, from the root down, are of the given kinds, the
/// deeper child in the given place; the other children are the leaf.
pub fn links(levels: &[(u64, usize)], leaf: (u64, u64)) -> Builder {
    let mut b = Builder::default();
    for (_, place) in levels { for _ in 0..*place { b.node(leaf.0, leaf.1); } }
    b.node(leaf.0, leaf.1);
    for (kind, place) in levels.iter().rev() {
        for _ in place + 1..arity(*kind).unwrap() { b.node(leaf.0, leaf.1); }
        b.op(*kind);
    }
    b
}
