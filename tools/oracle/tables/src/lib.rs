//! Node tables of document 01: the words, the check (refusals 1 to 5), a
//! builder. No dependency on the given Rust, so both oracles use it.
pub mod gen;
pub mod jumps;
pub mod meaning;
pub mod opcodes;
pub mod small;

/// Document 01's limits.
pub const MAX_NODES: usize = 65_536;
pub const MAX_DEPTH: u64 = 200;
pub const MAX_REGS: u64 = 65_535;

/// A refusal's number. It also travels as a panic payload through the given
/// codegen.rs, which has no error path of its own.
#[derive(Debug, Clone, Copy, PartialEq, Eq)]
pub struct Refused(pub u8);

/// What a compile reports. `consts` are pairs of kind byte and payload.
#[derive(Debug, Clone, PartialEq, Eq)]
pub struct Compiled {
    pub words: Vec<u64>,
    pub consts: Vec<(u8, u64)>,
    pub reg: u16,
    pub frame: u16,
}

/// A compile's input: table, layout, destination, room.
#[derive(Debug, Clone, PartialEq, Eq)]
pub struct Job {
    pub table: Vec<u64>,
    pub params: u64,
    pub locals: u64,
    pub dst: Option<u64>,
    pub max_words: usize,
    pub max_slots: usize,
}

impl Job {
    /// Parameters plus locals; no job of the generator passes 64 bits.
    pub fn base(&self) -> u64 { self.params + self.locals }
}

pub const NIL: u64 = 0;
pub const TRUE: u64 = 1;
pub const FALSE: u64 = 2;
pub const INT: u64 = 3;
pub const FLOAT: u64 = 4;
pub const REF: u64 = 5;
pub const MINUS: u64 = 6;
pub const NOT: u64 = 7;
pub const BIT_AND: u64 = 8;
pub const LSHIFT: u64 = 11;
pub const RSHIFT: u64 = 12;
pub const ADD: u64 = 13;
pub const SUB: u64 = 14;
pub const MUL: u64 = 15;
pub const DIV: u64 = 16;
pub const MOD: u64 = 17;
pub const EQ: u64 = 18;
pub const NE: u64 = 19;
pub const LT: u64 = 20;
pub const GE: u64 = 23;
pub const AND: u64 = 24;
pub const OR: u64 = 25;
pub const TERNARY: u64 = 26;

/// Children of a node, or none for an unknown kind.
pub fn arity(kind: u64) -> Option<usize> {
    match kind {
        NIL..=REF => Some(0),
        MINUS | NOT => Some(1),
        BIT_AND..=OR => Some(2),
        TERNARY => Some(3),
        _ => None,
    }
}

/// Document 01's check, before emission: 0 or the refusal's number.
pub fn check(table: &[u64], params: u64, locals: u64, dst: Option<u64>) -> u8 {
    refusal(table, params, locals, dst).map_or(0, |(number, _)| number)
}

/// The first refusal with its sub-case, in the order "1, layout 5,
/// destination 4, then nodes from 0 upward (2, 3, 4 at each), then the last
/// node's first".
pub fn refusal(t: &[u64], params: u64, locals: u64, dst: Option<u64>) -> Option<(u8, &'static str)> {
    let n = t.len() / 4;
    if t.is_empty() { return Some((1, "empty")) }
    if t.len() % 4 != 0 { return Some((1, "not a multiple of 4 words")) }
    if n > MAX_NODES { return Some((1, "too many nodes")) }
    let Some(base) = params.checked_add(locals).filter(|b| *b <= MAX_REGS) else { return Some((5, "layout")) };
    if dst.is_some_and(|d| d >= base) { return Some((4, "destination")) }
    for i in 0..n {
        let (kind, payload, first, depth) = (t[4 * i], t[4 * i + 1], t[4 * i + 2], t[4 * i + 3]);
        let Some(arity) = arity(kind) else { return Some((2, "unknown kind")) };
        if !matches!(kind, INT | FLOAT | REF) && payload != 0 { return Some((2, "payload")) }
        if kind == FLOAT && !f64::from_bits(payload).is_finite() { return Some((2, "not finite")) }
        // children from the last one down; `low` is the lowest node so far
        let (mut low, mut deepest) = (i as u64, 0);
        for _ in 0..arity {
            if low == 0 { return Some((2, "missing child")) }
            let child = low as usize - 1;
            low = t[4 * child + 2];
            deepest = deepest.max(t[4 * child + 3]);
        }
        if first != low { return Some((2, "first")) }
        if depth != deepest + 1 { return Some((2, "depth")) }
        if depth > MAX_DEPTH { return Some((3, "too deep")) }
        if kind == REF && payload >= base { return Some((4, "Ref")) }
    }
    if t[4 * (n - 1) + 2] != 0 { return Some((2, "last node's first")) }
    None
}

/// Appends nodes in post-order and fills in `first` and `depth`.
#[derive(Default, Clone)]
pub struct Builder { pub words: Vec<u64> }

impl Builder {
    pub fn node(&mut self, kind: u64, payload: u64) -> &mut Self {
        let i = (self.words.len() / 4) as u64;
        let (mut low, mut deepest) = (i, 0);
        for _ in 0..arity(kind).unwrap() {
            let child = low as usize - 1;
            low = self.words[4 * child + 2];
            deepest = deepest.max(self.words[4 * child + 3]);
        }
        self.words.extend([kind, payload, low, deepest + 1]);
        self
    }
    pub fn op(&mut self, kind: u64) -> &mut Self { self.node(kind, 0) }
    pub fn int(&mut self, v: i64) -> &mut Self { self.node(INT, v as u64) }
    pub fn float(&mut self, v: f64) -> &mut Self { self.node(FLOAT, v.to_bits()) }
    pub fn reg(&mut self, r: u64) -> &mut Self { self.node(REF, r) }
    pub fn job(&self, base: u64) -> Job {
        Job { table: self.words.clone(), params: base, locals: 0, dst: None,
              max_words: usize::MAX, max_slots: usize::MAX }
    }
}
