// The oracle's hook. It is include!d after the given codegen.rs, in the same
// module, because `Regs`, `CodeGen`, `ExprBox::gen_code`, `gen_into` and
// `patch_jump` are private there. Nothing in codegen.rs itself is touched.

/// Generate one expression, with the registers that the given `Regs::new`
/// hands out. With a destination the value goes there (`gen_into`), without
/// one it stays where `gen_code` left it. Answers the register and the frame
/// size.
pub fn oracle_expr(expr: &ExprBox, fun: &Function, actor: &mut Actor, prog: &Program, dst: Option<u16>) -> (u16, u16)
{
    let cg = &mut CodeGen::new(actor, prog);
    let mut regs = Regs::new(fun);
    let res = match dst {
        None => expr.gen_code(fun, &mut regs, cg, None),
        Some(d) => gen_into(expr, fun, &mut regs, cg, d).map(|()| d),
    };
    (res.expect("no table has a parse error"), regs.max)
}

/// Patch one word that already stands.
pub fn oracle_patch(actor: &mut Actor, prog: &Program, at: usize, target: usize)
{
    let cg = &mut CodeGen::new(actor, prog);
    patch_jump(cg, at, target);
}
