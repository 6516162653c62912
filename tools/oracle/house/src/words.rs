//! Document 01's answers about instruction words, each taken from the given
//! Rust: its constructors, its display (which decodes) and its `patch_jump`,
//! with 01's refusals around them.
use crate::insns::{oracle_word, Insn};
use tables::opcodes::{is_house_raw, Kind, OPCODES};

/// The given constructor of opcode `op` on operands in declared order, each
/// within its Rust type.
fn constructor(op: usize, v: &[i64]) -> Insn
{
    macro_rules! by_name {
        ($($name:ident($($i:literal)*))*) => {
            match OPCODES[op].0 {
                $(stringify!($name) => Insn::$name($(v[$i] as _),*),)*
                other => unreachable!("{other}"),
            }
        }
    }
    by_name! {
        panic() breakpoint() nop() load_imm40(0 1) mov(0 1) load_const(0 1) get_global(0 1) set_global(0 1)
        lshift(0 1 2) rshift(0 1 2) bit_and(0 1 2) bit_or(0 1 2) bit_xor(0 1 2) bit_not(0 1)
        lshift_imm(0 1 2) rshift_imm(0 1 2) bit_and_mask(0 1 2 3) rshift_mask(0 1 2 3 4)
        add(0 1 2) sub(0 1 2) mul(0 1 2) div(0 1 2) modulo(0 1 2)
        add_imm16(0 1 2) sub_imm16(0 1 2) mul_imm16(0 1 2) not(0 1)
        clos_new(0 1 2) clos_set(0 1 2) clos_get(0 1) cell_new(0) cell_set(0 1) cell_get(0 1)
        instanceof(0 1 2) instanceof_sub(0 1 2) get_field(0 1 2) set_field(0 1 2) get_index(0 1 2) set_index(0 1 2)
        dict_new(0) arr_new(0 1) arr_push(0 1) ba_clone(0 1)
        if_true(0 1) if_false(0 1)
        jeq(0 1 2) jne(0 1 2) jlt(0 1 2) jle(0 1 2) jgt(0 1 2) jge(0 1 2)
        jnlt(0 1 2) jnle(0 1 2) jngt(0 1 2) jnge(0 1 2)
        jeq_imm16(0 1 2) jne_imm16(0 1 2) jlt_imm16(0 1 2) jle_imm16(0 1 2) jgt_imm16(0 1 2) jge_imm16(0 1 2)
        jnlt_imm16(0 1 2) jnle_imm16(0 1 2) jngt_imm16(0 1 2) jnge_imm16(0 1 2)
        jmp(0) call_opnd(0 1 2) call_host(0 1 2) call_direct(0 1 2) call_pc(0 1 2) call_method(0 1 2)
        call_method_host(0 1 2 3) call_idiv_int(0 1 2) new(0 1 2) new_known_ctor(0 1 2) ret(0) ret_imm40(0)
    }
}

/// Construct: the word, or 9 where the Rust asserts or a raw is no value's.
pub fn construct(op: usize, v: &[i64]) -> Result<u64, u8>
{
    for (field, x) in OPCODES[op].1.iter().zip(v) {
        if *field == Kind::I40 && !is_house_raw(*x) { return Err(9) }
    }
    std::panic::catch_unwind(|| constructor(op, v).word_u64()).map_err(|_| 9)
}

/// Decode: opcode and operands, as the given display shows them, or 10 for
/// what does not construct to the same word again.
pub fn decode(word: u64) -> Result<(usize, Vec<i64>), u8>
{
    let op = (word & 0xFF) as usize;
    if op >= OPCODES.len() { return Err(10) }
    let text = oracle_word(word).to_string();
    let operands = text.strip_prefix(OPCODES[op].0).expect("the names agree");
    let v: Vec<i64> = operands.split(", ").map(|s| s.trim().trim_start_matches('r'))
        .filter(|s| !s.is_empty()).map(|s| s.parse().unwrap()).collect();
    if construct(op, &v) == Ok(word) { Ok((op, v)) } else { Err(10) }
}

/// Patch: the number, with the one word changed in place if it is 0. The
/// given `patch_jump` takes a target from 2^63 up for a negative number; by
/// 01 it lies too far.
pub fn patch(o: &mut crate::Oracle, words: &mut Vec<u64>, at: u64, target: u64) -> u8
{
    let Some(word) = usize::try_from(at).ok().and_then(|at| words.get(at)) else { return 12 };
    if decode(*word).is_err() { return 10 }
    if !oracle_word(*word).opcode().is_branch() { return 11 }
    if target > i64::MAX as u64 { return 8 }
    let store: Vec<Insn> = words.iter().map(|w| oracle_word(*w)).collect();
    match o.patch(&store, at as usize, target as usize) {
        Some(patched) => { *words = patched; 0 }
        None => 8,
    }
}
