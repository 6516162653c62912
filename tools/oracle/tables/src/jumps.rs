//! The places of a lent jump list, by document 01's rule that the later part
//! of the list goes to the right operand. No dependency on the given Rust,
//! which keeps its lists on the heap.
use crate::*;

/// For each conditional branch, in the order of emission: how many places are
/// taken once it stands in the list. A list with fewer places has none for it.
pub fn taken(table: &[u64]) -> Vec<usize> {
    let mut w = Walk { t: table, taken: vec![] };
    w.value(table.len() / 4 - 1, 0);
    w.taken
}

/// The places that the whole table takes.
pub fn most(table: &[u64]) -> usize { taken(table).into_iter().max().unwrap_or(0) }

struct Walk<'a> { t: &'a [u64], taken: Vec<usize> }

impl Walk<'_> {
    /// The child that ends just before node i.
    fn before(&self, i: usize) -> usize { self.t[4 * i + 2] as usize - 1 }

    /// Node i as a value, while `used` places are taken.
    fn value(&mut self, i: usize, used: usize) {
        match self.t[4 * i] {
            NIL..=REF => {}
            MINUS | NOT => self.value(i - 1, used),
            EQ..=OR => { self.branch(i, true, used); }
            TERNARY => {
                let then = self.before(i - 1);
                let pending = self.branch(self.before(then), false, used);
                self.value(then, used + pending);
                // the test's jumps are patched where the else side begins
                self.value(i - 1, used);
            }
            _ => {
                self.value(self.before(i - 1), used);
                self.value(i - 1, used);
            }
        }
    }

    /// Node i as a test that jumps on `sense`: the jumps left pending.
    fn branch(&mut self, i: usize, sense: bool, used: usize) -> usize {
        let kind = self.t[4 * i];
        match kind {
            NOT => return self.branch(i - 1, !sense, used),
            AND | OR => {
                // the value of the left side that decides the whole
                let by = kind == OR;
                let left = self.branch(self.before(i - 1), by, used);
                let right = self.branch(i - 1, sense, used + left);
                return if sense == by { left + right } else { right };
            }
            EQ..=GE => {
                self.value(self.before(i - 1), used);
                self.value(i - 1, used);
            }
            _ => self.value(i, used),
        }
        self.taken.push(used + 1);
        1
    }
}
