//! Expressions that are known when a program is compiled, written with Rust's own operators.
//!
//! ```
//! use vosemaqe::expr::{int, local};
//!
//! let (a, b) = (local(0), local(1));
//! let mut words = [0; 24];
//! let table = a.lt(b).then_else(int(1), int(2)).table(&mut words)?;
//! assert_eq!(table[8..12], [20, 0, 0, 2]); // node 2: kind, payload, first, depth
//! # Ok::<(), vosemaqe::Error>(())
//! ```
use crate::{Error, Kind, Table};
use core::ops;

/// What an expression is made of: a leaf, or an operator and its operands.
pub trait Part: Copy {
    /// Writes its nodes, operands before their operator.
    fn put(self, table: &mut Table<'_>);
}

/// An expression.
#[derive(Debug, Clone, Copy)]
pub struct Expr<T>(T);

/// Nil, True, False, an Int, a Float or a local: its kind and payload.
#[derive(Debug, Clone, Copy)]
pub struct Leaf(Kind, u64);

/// An operator with one operand.
#[derive(Debug, Clone, Copy)]
pub struct One<A>(Kind, A);

/// An operator with two operands.
#[derive(Debug, Clone, Copy)]
pub struct Two<A, B>(Kind, A, B);

/// Test, then, else.
#[derive(Debug, Clone, Copy)]
pub struct Three<A, B, C>(A, B, C);

impl Part for Leaf {
    fn put(self, table: &mut Table<'_>) {
        table.node(self.0, self.1);
    }
}

impl<A: Part> Part for One<A> {
    fn put(self, table: &mut Table<'_>) {
        self.1.put(table);
        table.op(self.0);
    }
}

impl<A: Part, B: Part> Part for Two<A, B> {
    fn put(self, table: &mut Table<'_>) {
        self.1.put(table);
        self.2.put(table);
        table.op(self.0);
    }
}

impl<A: Part, B: Part, C: Part> Part for Three<A, B, C> {
    fn put(self, table: &mut Table<'_>) {
        self.0.put(table);
        self.1.put(table);
        self.2.put(table);
        table.op(Kind::Ternary);
    }
}

/// Nil.
pub fn nil() -> Expr<Leaf> {
    Expr(Leaf(Kind::Nil, 0))
}

/// True or False.
pub fn boolean(b: bool) -> Expr<Leaf> {
    Expr(Leaf(if b { Kind::True } else { Kind::False }, 0))
}

/// An Int.
pub fn int(n: i64) -> Expr<Leaf> {
    Expr(Leaf(Kind::Int, n as u64))
}

/// A Float.
pub fn float(x: f64) -> Expr<Leaf> {
    Expr(Leaf(Kind::Float, x.to_bits()))
}

/// A parameter or a local, by its register.
pub fn local(register: u64) -> Expr<Leaf> {
    Expr(Leaf(Kind::Ref, register))
}

impl<A: Part> Expr<A> {
    /// The node table of the expression, in the words lent: four for each node, or `NoRoom`.
    pub fn table(self, words: &mut [u64]) -> Result<&mut [u64], Error> {
        let mut table = Table::new(words);
        self.0.put(&mut table);
        table.finish()
    }

    /// `self ? then : other`
    pub fn then_else<B: Part, C: Part>(
        self,
        then: Expr<B>,
        other: Expr<C>,
    ) -> Expr<Three<A, B, C>> {
        Expr(Three(self.0, then.0, other.0))
    }
}

/// Operators that Rust has no trait for, or one with another result.
macro_rules! methods {
    ($($name:ident = $kind:ident, $what:literal;)*) => {
        impl<A: Part> Expr<A> {
            $(#[doc = $what]
            pub fn $name<B: Part>(self, other: Expr<B>) -> Expr<Two<A, B>> {
                Expr(Two(Kind::$kind, self.0, other.0))
            })*
        }
    };
}

methods! {
    eq = Eq, "`self == other`";
    ne = Ne, "`self != other`";
    lt = Lt, "`self < other`";
    le = Le, "`self <= other`";
    gt = Gt, "`self > other`";
    ge = Ge, "`self >= other`";
    and = And, "`self && other`, which skips `other` where `self` is false";
    or = Or, "`self || other`, which skips `other` where `self` is true";
}

macro_rules! operators {
    ($($name:ident, $method:ident = $kind:ident;)*) => {
        $(impl<A: Part, B: Part> ops::$name<Expr<B>> for Expr<A> {
            type Output = Expr<Two<A, B>>;
            fn $method(self, other: Expr<B>) -> Self::Output {
                Expr(Two(Kind::$kind, self.0, other.0))
            }
        })*
    };
}

operators! {
    BitAnd, bitand = BitAnd;
    BitOr, bitor = BitOr;
    BitXor, bitxor = BitXor;
    Shl, shl = LShift;
    Shr, shr = RShift;
    Add, add = Add;
    Sub, sub = Sub;
    Mul, mul = Mul;
    Div, div = Div;
    Rem, rem = Mod;
}

impl<A: Part> ops::Neg for Expr<A> {
    type Output = Expr<One<A>>;
    fn neg(self) -> Self::Output {
        Expr(One(Kind::Minus, self.0))
    }
}

impl<A: Part> ops::Not for Expr<A> {
    type Output = Expr<One<A>>;
    fn not(self) -> Self::Output {
        Expr(One(Kind::Not, self.0))
    }
}
