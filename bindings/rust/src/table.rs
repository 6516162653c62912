//! Node tables, built in post-order into lent words.
use crate::{ffi, Error};

/// The kinds of a node, by their numbers in a table. Operands come before their operator: one
/// before `Minus` and `Not`, two before each from `BitAnd` to `Or`, three before `Ternary`.
#[derive(Debug, Clone, Copy, PartialEq, Eq, Hash)]
#[repr(u8)]
#[allow(missing_docs)]
pub enum Kind {
    Nil = 0,
    True = 1,
    False = 2,
    /// payload two's complement
    Int = 3,
    /// payload its bits
    Float = 4,
    /// payload a register below parameters plus locals
    Ref = 5,
    Minus = 6,
    Not = 7,
    BitAnd = 8,
    BitOr = 9,
    BitXor = 10,
    LShift = 11,
    RShift = 12,
    Add = 13,
    Sub = 14,
    Mul = 15,
    Div = 16,
    Mod = 17,
    Eq = 18,
    Ne = 19,
    Lt = 20,
    Le = 21,
    Gt = 22,
    Ge = 23,
    And = 24,
    Or = 25,
    /// test, then, else
    Ternary = 26,
}

impl From<Kind> for u64 {
    fn from(kind: Kind) -> u64 {
        kind as u64
    }
}

/// Fills in the first and depth of every node; kinds and payloads stay.
///
/// ```
/// # use vosemaqe::*;
/// let mut table = [5, 0, 9, 9, 6, 0, 9, 9]; // -a
/// complete(&mut table);
/// assert_eq!(table, [5, 0, 0, 1, 6, 0, 0, 2]);
/// ```
pub fn complete(nodes: &mut [u64]) {
    // SAFETY: the slice is valid for its length, and lent as `&mut`.
    unsafe { ffi::vosemaqe_complete(nodes.as_mut_ptr(), nodes.len()) }
}

/// A table that is being written, operands before their operator, as a reader of expressions
/// finds them.
///
/// ```
/// # use vosemaqe::*;
/// let mut words = [0; 12];
/// let mut t = Table::new(&mut words);
/// t.local(0).int(5).op(Kind::Add); // a + 5
/// assert_eq!(t.finish()?, [5, 0, 0, 1, 3, 5, 1, 1, 13, 0, 0, 2]);
///
/// let mut t = Table::new(&mut words);
/// t.local(0).int(5).op(Kind::Add).op(Kind::Minus);
/// assert_eq!(t.finish(), Err(Error::NoRoom));
/// # Ok::<(), Error>(())
/// ```
#[derive(Debug)]
pub struct Table<'a> {
    words: &'a mut [u64],
    used: usize,
    full: bool,
}

impl<'a> Table<'a> {
    /// An empty table, with room for a node in every four words.
    pub fn new(words: &'a mut [u64]) -> Self {
        let (used, full) = (0, false);
        Table { words, used, full }
    }

    pub(crate) fn node(&mut self, kind: Kind, payload: u64) -> &mut Self {
        match self.words.get_mut(self.used..self.used + 4) {
            Some(node) => {
                node.copy_from_slice(&[kind.into(), payload, 0, 0]);
                self.used += 4;
            }
            None => self.full = true,
        }
        self
    }

    /// A local, by its register.
    pub fn local(&mut self, register: u64) -> &mut Self {
        self.node(Kind::Ref, register)
    }

    /// An Int.
    pub fn int(&mut self, n: i64) -> &mut Self {
        self.node(Kind::Int, n as u64)
    }

    /// A Float.
    pub fn float(&mut self, x: f64) -> &mut Self {
        self.node(Kind::Float, x.to_bits())
    }

    /// A node without a payload: an operator on the nodes before it, or Nil, True, False.
    pub fn op(&mut self, kind: Kind) -> &mut Self {
        self.node(kind, 0)
    }

    /// The table, its first and depth filled in, or `NoRoom`. It is not checked:
    /// [`check`](crate::check) and every function that takes a table does that.
    pub fn finish(self) -> Result<&'a mut [u64], Error> {
        if self.full {
            return Err(Error::NoRoom);
        }
        let table = &mut self.words[..self.used];
        complete(table);
        Ok(table)
    }
}
