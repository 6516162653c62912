//! The 77 opcodes of insns.rs as a table, made from its `def_opcodes!` list,
//! and both packings of their fields over it. Independent of the macros in
//! insns.rs, so it checks them.
use Kind::*;

/// A field's kind, as insns.rs names them.
#[derive(Debug, Clone, Copy, PartialEq, Eq)]
pub enum Kind { OutReg, Reg, U6, U8, U12, U16, U24, U32, I16, I40, Disp24, Disp32 }

impl Kind {
    pub fn width(self) -> u32 {
        match self { U6 => 6, U8 => 8, U12 => 12, OutReg | Reg | U16 | I16 => 16, U24 | Disp24 => 24, U32 | Disp32 => 32, I40 => 40 }
    }
    pub fn signed(self) -> bool { matches!(self, I16 | I40) || self.is_disp() }
    pub fn is_disp(self) -> bool { matches!(self, Disp24 | Disp32) }
    pub fn is_reg(self) -> bool { matches!(self, OutReg | Reg) }

    /// Least and greatest operand.
    fn range(self) -> (i64, i64) {
        let w = self.width();
        if self.signed() { (-(1 << (w - 1)), (1 << (w - 1)) - 1) } else { (0, (1 << w) - 1) }
    }
}

/// Name and fields, in declared order; the index is the opcode.
pub const OPCODES: [(&str, &[Kind]); 77] = [
    /*  0 */ ("panic", &[]),
    /*  1 */ ("breakpoint", &[]),
    /*  2 */ ("nop", &[]),
    /*  3 */ ("load_imm40", &[OutReg, I40]),
    /*  4 */ ("mov", &[OutReg, Reg]),
    /*  5 */ ("load_const", &[OutReg, U32]),
    /*  6 */ ("get_global", &[OutReg, U32]),
    /*  7 */ ("set_global", &[Reg, U32]),
    /*  8 */ ("lshift", &[OutReg, Reg, Reg]),
    /*  9 */ ("rshift", &[OutReg, Reg, Reg]),
    /* 10 */ ("bit_and", &[OutReg, Reg, Reg]),
    /* 11 */ ("bit_or", &[OutReg, Reg, Reg]),
    /* 12 */ ("bit_xor", &[OutReg, Reg, Reg]),
    /* 13 */ ("bit_not", &[OutReg, Reg]),
    /* 14 */ ("lshift_imm", &[OutReg, Reg, U6]),
    /* 15 */ ("rshift_imm", &[OutReg, Reg, U6]),
    /* 16 */ ("bit_and_mask", &[OutReg, Reg, U6, U6]),
    /* 17 */ ("rshift_mask", &[OutReg, Reg, U6, U6, U6]),
    /* 18 */ ("add", &[OutReg, Reg, Reg]),
    /* 19 */ ("sub", &[OutReg, Reg, Reg]),
    /* 20 */ ("mul", &[OutReg, Reg, Reg]),
    /* 21 */ ("div", &[OutReg, Reg, Reg]),
    /* 22 */ ("modulo", &[OutReg, Reg, Reg]),
    /* 23 */ ("add_imm16", &[OutReg, Reg, I16]),
    /* 24 */ ("sub_imm16", &[OutReg, Reg, I16]),
    /* 25 */ ("mul_imm16", &[OutReg, Reg, I16]),
    /* 26 */ ("not", &[OutReg, Reg]),
    /* 27 */ ("clos_new", &[OutReg, U24, U12]),
    /* 28 */ ("clos_set", &[Reg, Reg, U12]),
    /* 29 */ ("clos_get", &[OutReg, U12]),
    /* 30 */ ("cell_new", &[OutReg]),
    /* 31 */ ("cell_set", &[Reg, Reg]),
    /* 32 */ ("cell_get", &[OutReg, Reg]),
    /* 33 */ ("instanceof", &[OutReg, Reg, U24]),
    /* 34 */ ("instanceof_sub", &[OutReg, Reg, U24]),
    /* 35 */ ("get_field", &[OutReg, Reg, U24]),
    /* 36 */ ("set_field", &[Reg, Reg, U24]),
    /* 37 */ ("get_index", &[OutReg, Reg, Reg]),
    /* 38 */ ("set_index", &[Reg, Reg, Reg]),
    /* 39 */ ("dict_new", &[OutReg]),
    /* 40 */ ("arr_new", &[OutReg, U32]),
    /* 41 */ ("arr_push", &[Reg, Reg]),
    /* 42 */ ("ba_clone", &[OutReg, Reg]),
    /* 43 */ ("if_true", &[Reg, Disp32]),
    /* 44 */ ("if_false", &[Reg, Disp32]),
    /* 45 */ ("jeq", &[Reg, Reg, Disp24]),
    /* 46 */ ("jne", &[Reg, Reg, Disp24]),
    /* 47 */ ("jlt", &[Reg, Reg, Disp24]),
    /* 48 */ ("jle", &[Reg, Reg, Disp24]),
    /* 49 */ ("jgt", &[Reg, Reg, Disp24]),
    /* 50 */ ("jge", &[Reg, Reg, Disp24]),
    /* 51 */ ("jnlt", &[Reg, Reg, Disp24]),
    /* 52 */ ("jnle", &[Reg, Reg, Disp24]),
    /* 53 */ ("jngt", &[Reg, Reg, Disp24]),
    /* 54 */ ("jnge", &[Reg, Reg, Disp24]),
    /* 55 */ ("jeq_imm16", &[Reg, I16, Disp24]),
    /* 56 */ ("jne_imm16", &[Reg, I16, Disp24]),
    /* 57 */ ("jlt_imm16", &[Reg, I16, Disp24]),
    /* 58 */ ("jle_imm16", &[Reg, I16, Disp24]),
    /* 59 */ ("jgt_imm16", &[Reg, I16, Disp24]),
    /* 60 */ ("jge_imm16", &[Reg, I16, Disp24]),
    /* 61 */ ("jnlt_imm16", &[Reg, I16, Disp24]),
    /* 62 */ ("jnle_imm16", &[Reg, I16, Disp24]),
    /* 63 */ ("jngt_imm16", &[Reg, I16, Disp24]),
    /* 64 */ ("jnge_imm16", &[Reg, I16, Disp24]),
    /* 65 */ ("jmp", &[Disp32]),
    /* 66 */ ("call_opnd", &[Reg, U8, U24]),
    /* 67 */ ("call_host", &[U16, Reg, U8]),
    /* 68 */ ("call_direct", &[U24, Reg, U8]),
    /* 69 */ ("call_pc", &[Reg, U8, U24]),
    /* 70 */ ("call_method", &[Reg, U8, U24]),
    /* 71 */ ("call_method_host", &[Reg, U8, U8, U24]),
    /* 72 */ ("call_idiv_int", &[Reg, U8, U24]),
    /* 73 */ ("new", &[U24, Reg, U8]),
    /* 74 */ ("new_known_ctor", &[Reg, U8, U24]),
    /* 75 */ ("ret", &[Reg]),
    /* 76 */ ("ret_imm40", &[I40]),
];

/// Where each field starts: upward from bit 8 (document 01), or with the
/// last one at the top of the word (as published).
fn starts(op: usize, top_aligned: bool) -> Vec<u32> {
    let fields = OPCODES[op].1;
    let mut pos = 8;
    let mut out = vec![];
    for (i, f) in fields.iter().enumerate() {
        let last = i + 1 == fields.len();
        out.push(if last && top_aligned { 64 - f.width() } else { pos });
        pos += f.width();
    }
    out
}

/// Opcode and operands of a word, or none if it is no word of this packing:
/// unknown opcode, or a bit outside its fields.
pub fn unpack(word: u64, top_aligned: bool) -> Option<(usize, Vec<i64>)> {
    let op = (word & 0xFF) as usize;
    if op >= OPCODES.len() { return None }
    let opnds: Vec<i64> = OPCODES[op].1.iter().zip(starts(op, top_aligned)).map(|(f, pos)| extend(*f, word >> pos)).collect();
    if pack(op, &opnds, top_aligned) == Some(word) { Some((op, opnds)) } else { None }
}

/// The operand that the low bits are.
pub fn extend(f: Kind, bits: u64) -> i64 {
    let cut = 64 - f.width();
    if f.signed() { (bits << cut) as i64 >> cut } else { (bits << cut >> cut) as i64 }
}

/// The word of an opcode and operands, or none if one does not fit.
pub fn pack(op: usize, opnds: &[i64], top_aligned: bool) -> Option<u64> {
    let fields = OPCODES[op].1;
    assert_eq!(fields.len(), opnds.len());
    let mut word = op as u64;
    for ((f, pos), v) in fields.iter().zip(starts(op, top_aligned)).zip(opnds) {
        let (least, greatest) = f.range();
        if *v < least || *v > greatest { return None }
        word |= ((*v as u64) & (u64::MAX >> (64 - f.width()))) << pos;
    }
    Some(word)
}

/// Document 01's raw bits: Int n is 4n, Nil 1, False 5, True 9.
pub fn is_house_raw(raw: i64) -> bool { raw % 4 == 0 || raw == 1 || raw == 5 || raw == 9 }

/// Document 01's decoding: `unpack` upward, and a raw must be a value's.
pub fn decode(word: u64) -> Option<(usize, Vec<i64>)> {
    let (op, opnds) = unpack(word, false)?;
    let raws_ok = OPCODES[op].1.iter().zip(&opnds).all(|(f, v)| *f != I40 || is_house_raw(*v));
    if raws_ok { Some((op, opnds)) } else { None }
}

/// A word in words: the name, then the operands as decimals.
pub fn line(op: usize, opnds: &[i64]) -> String {
    let list = opnds.iter().map(|v| v.to_string()).collect::<Vec<_>>().join(", ");
    if list.is_empty() { OPCODES[op].0.to_string() } else { format!("{} {}", OPCODES[op].0, list) }
}
