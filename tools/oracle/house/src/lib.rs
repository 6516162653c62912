//! The oracle in HOUSE mode: the given codegen.rs, ast.rs, lexer.rs and
//! symbols.rs byte for byte, document 01's rules in the rest.
#![allow(dead_code, unused)]

#[path = "../../given/ast.rs"] pub mod ast;
#[path = "../../given/lexer.rs"] pub mod lexer;
#[path = "../../given/symbols.rs"] pub mod symbols;

/// The given insns.rs in document 01's packing, written by build.rs.
#[allow(non_camel_case_types)]
pub mod insns
{
    include!(concat!(env!("OUT_DIR"), "/insns.rs"));
    /// `Insn`'s field is private to this module.
    pub fn oracle_word(word: u64) -> Insn { Insn(word) }
}
pub mod alloc;
pub mod value;
pub mod words;

pub mod codegen
{
    include!("../../given/codegen.rs");
    include!("../../shims/parts/hook.rs");
}

pub mod str
{
    use crate::{alloc::Alloc, value::Value};
    pub struct Str;
    impl Str
    {
        pub fn alloc_size(_n: usize) -> usize { unreachable!() }
        pub fn new(_s: &str, _alloc: &mut Alloc) -> Value { unreachable!() }
    }
}

include!("../../shims/parts/stubs.rs");
#[path = "../../shims/parts/vm.rs"] pub mod vm;

pub fn pair(v: value::Value) -> (u8, u64) { v.pair() }

/// 02, W2; a runner may turn it off in an `Actor`
pub const SHARES: bool = true;

include!("../../shims/parts/driver.rs");
