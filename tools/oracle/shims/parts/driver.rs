// From a node table to the Rust's tree, and the call of its generator.
// include!d by both oracle crates, since their types are their own.
use ast::{BinOp, Expr, ExprBox, Function, Program, UnOp};
use symbols::Decl;
use tables::{Compiled, Job, Refused};

const BIN_OPS: [BinOp; 18] = {
    use BinOp::*;
    [BitAnd, BitOr, BitXor, LShift, RShift, Add, Sub, Mul, Div, Mod, Eq, Ne, Lt, Le, Gt, Ge, And, Or]
};

/// The tree of a checked table.
pub fn tree(table: &[u64], params: u32) -> ExprBox
{
    let mut stack: Vec<ExprBox> = vec![];
    for node in table.chunks(4) {
        let expr = match (node[0], node[1]) {
            (0, _) => Expr::Nil,
            (1, _) => Expr::True,
            (2, _) => Expr::False,
            (3, p) => Expr::Int64(p as i64),
            (4, p) => Expr::Float64(f64::from_bits(p)),
            (5, p) => Expr::Ref { name: String::new(), decl: decl(p as u32, params) },
            (k @ 6..=7, _) => Expr::Unary {
                op: if k == 6 { UnOp::Minus } else { UnOp::Not },
                child: stack.pop().unwrap(),
            },
            (k @ 8..=25, _) => {
                let rhs = stack.pop().unwrap();
                let lhs = stack.pop().unwrap();
                Expr::Binary { op: BIN_OPS[k as usize - 8], lhs, rhs }
            }
            (26, _) => {
                let else_expr = stack.pop().unwrap();
                let then_expr = stack.pop().unwrap();
                let test_expr = stack.pop().unwrap();
                Expr::Ternary { test_expr, then_expr, else_expr }
            }
            _ => panic!("unchecked table"),
        };
        stack.push(ExprBox::new(expr, lexer::SrcPos::default()));
    }
    assert!(stack.len() == 1);
    stack.pop().unwrap()
}

fn decl(reg: u32, params: u32) -> Decl
{
    let src_fun = ast::FunId::default();
    if reg < params { Decl::Arg { idx: reg, src_fun } }
    else { Decl::Local { idx: reg - params, src_fun, mutable: true } }
}

/// The Rust reads a layout off a function: its parameters' names and its
/// number of locals.
pub fn function(params: u32, locals: u32) -> Function
{
    Function { params: vec![String::new(); params as usize], num_locals: locals as usize, ..Default::default() }
}

/// A generator with its stores and its function, used again from job to job.
pub struct Oracle { pub actor: vm::Actor, pub prog: Program, fun: Function }

impl Oracle
{
    pub fn new() -> Self { Oracle { actor: vm::Actor::new(), prog: Program::new(), fun: function(0, 0) } }

    pub fn clear(&mut self, max_words: usize, max_slots: usize)
    {
        let a = &mut self.actor;
        a.insns.clear();
        a.consts.clear();
        if let Some(x) = &mut a.index { x.clear() }
        a.alloc.reset();
        a.max_words = max_words;
        a.max_slots = max_slots;
    }

    /// Generate alone, from a tree at hand.
    pub fn emit(&mut self, expr: &ExprBox, fun: &Function, dst: Option<u16>) -> (u16, u16)
    {
        codegen::oracle_expr(expr, fun, &mut self.actor, &self.prog, dst)
    }

    /// Document 01's compile: check, then the Rust. A panic inside the Rust
    /// becomes its number.
    pub fn compile(&mut self, job: &Job) -> Result<Compiled, Refused>
    {
        match tables::check(&job.table, job.params, job.locals, job.dst) { 0 => {} n => return Err(Refused(n)) }
        // the check bounds both counts and the destination by 65,535
        let (params, locals) = (job.params as u32, job.locals as u32);
        let expr = tree(&job.table, params);
        let mut fun = std::mem::take(&mut self.fun);
        fun.params.resize(params as usize, String::new());
        fun.num_locals = locals as usize;
        self.clear(job.max_words, job.max_slots);
        let dst = job.dst.map(|d| d as u16);
        let run = std::panic::AssertUnwindSafe(|| self.emit(&expr, &fun, dst));
        let done = std::panic::catch_unwind(run);
        self.fun = fun;
        match done {
            Ok((reg, frame)) => Ok(Compiled {
                words: self.actor.insns.iter().map(|w| w.word_u64()).collect(),
                consts: self.actor.consts.iter().map(|v| pair(*v)).collect(),
                reg,
                frame,
            }),
            Err(payload) => Err(number(payload)),
        }
    }

    /// The given `patch_jump` on a store of words; none where it panics.
    pub fn patch(&mut self, words: &[insns::Insn], at: usize, target: usize) -> Option<Vec<u64>>
    {
        self.clear(usize::MAX, usize::MAX);
        self.actor.insns.extend_from_slice(words);
        let run = std::panic::AssertUnwindSafe(|| codegen::oracle_patch(&mut self.actor, &self.prog, at, target));
        std::panic::catch_unwind(run).ok()?;
        Some(self.actor.insns.iter().map(|w| w.word_u64()).collect())
    }
}

/// The number of a panic: the shim's own payload, or the Rust's message.
fn number(payload: Box<dyn std::any::Any + Send>) -> Refused
{
    if let Some(r) = payload.downcast_ref::<Refused>() { return *r }
    let msg = payload.downcast_ref::<String>().cloned()
        .or(payload.downcast_ref::<&str>().map(|s| s.to_string())).unwrap_or_default();
    if msg.contains("frame is too large") { return Refused(5) }
    if msg.contains("jump is out of range") || msg.contains("does not fit in disp") { return Refused(8) }
    if msg.contains("does not fit in") { return Refused(9) }
    std::panic::resume_unwind(payload)
}
