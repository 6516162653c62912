//! The oracle AS PUBLISHED: ten files of maximecb/plush 9c95be841e, byte for
//! byte, under a root that fills their holes.
#![allow(dead_code, unused, static_mut_refs)]

#[path = "../../given/alloc.rs"] pub mod alloc;
#[path = "../../given/ast.rs"] pub mod ast;
#[path = "../../given/closure.rs"] pub mod closure;
#[path = "../../given/insns.rs"] pub mod insns;
#[path = "../../given/lexer.rs"] pub mod lexer;
#[path = "../../given/object.rs"] pub mod object;
#[path = "../../given/str.rs"] pub mod str;
#[path = "../../given/symbols.rs"] pub mod symbols;
#[path = "../../given/value.rs"] pub mod value;

pub mod codegen
{
    include!("../../given/codegen.rs");
    include!("../../shims/parts/hook.rs");
}

include!("../../shims/parts/stubs.rs");
#[path = "../../shims/parts/vm.rs"] pub mod vm;

/// A constant slot as document 01's pair. Flonums and boxes read back the
/// same way, so the pair does not show which it was.
pub fn pair(v: value::Value) -> (u8, u64)
{
    if let Some(n) = v.to_i64() { return (2, n as u64) }
    if let Some(x) = v.to_f64() { return (3, x.to_bits()) }
    if v.is_nil() { (0, 0) } else { (1, v.as_bool() as u64) }
}

/// A fresh slot for each constant, as it was before 02, W2
pub const SHARES: bool = false;

include!("../../shims/parts/driver.rs");
