//! Instruction words by name.
use crate::Error;
use core::fmt;

macro_rules! opcodes {
    ($($variant:ident = $number:literal, $name:literal, $fields:literal;)*) => {
        /// The opcodes, by their numbers: the low byte of a word.
        #[derive(Debug, Clone, Copy, PartialEq, Eq, Hash)]
        #[repr(u8)]
        pub enum Opcode {
            $(#[doc = concat!("`", $name, " ", $fields, "`")] $variant = $number),*
        }

        impl Opcode {
            /// All of them, in order.
            pub const ALL: &'static [Opcode] = &[$(Opcode::$variant),*];

            /// The name.
            pub fn name(self) -> &'static str {
                match self { $(Opcode::$variant => $name),* }
            }

            /// The operands in declared order, as `include/vosemaqe.h` writes them: `r` a register, `s` a slot,
            /// `i` a 16-bit literal, `v` a raw value, `nW` an unsigned number and `jW` a displacement of W bits.
            pub fn fields(self) -> &'static str {
                match self { $(Opcode::$variant => $fields),* }
            }
        }
    };
}

opcodes! {
    Panic = 0, "panic", "";
    Breakpoint = 1, "breakpoint", "";
    Nop = 2, "nop", "";
    LoadImm40 = 3, "load_imm40", "r v";
    Mov = 4, "mov", "r r";
    LoadConst = 5, "load_const", "r s";
    GetGlobal = 6, "get_global", "r n32";
    SetGlobal = 7, "set_global", "r n32";
    Lshift = 8, "lshift", "r r r";
    Rshift = 9, "rshift", "r r r";
    BitAnd = 10, "bit_and", "r r r";
    BitOr = 11, "bit_or", "r r r";
    BitXor = 12, "bit_xor", "r r r";
    BitNot = 13, "bit_not", "r r";
    LshiftImm = 14, "lshift_imm", "r r n6";
    RshiftImm = 15, "rshift_imm", "r r n6";
    BitAndMask = 16, "bit_and_mask", "r r n6 n6";
    RshiftMask = 17, "rshift_mask", "r r n6 n6 n6";
    Add = 18, "add", "r r r";
    Sub = 19, "sub", "r r r";
    Mul = 20, "mul", "r r r";
    Div = 21, "div", "r r r";
    Modulo = 22, "modulo", "r r r";
    AddImm16 = 23, "add_imm16", "r r i";
    SubImm16 = 24, "sub_imm16", "r r i";
    MulImm16 = 25, "mul_imm16", "r r i";
    Not = 26, "not", "r r";
    ClosNew = 27, "clos_new", "r n24 n12";
    ClosSet = 28, "clos_set", "r r n12";
    ClosGet = 29, "clos_get", "r n12";
    CellNew = 30, "cell_new", "r";
    CellSet = 31, "cell_set", "r r";
    CellGet = 32, "cell_get", "r r";
    Instanceof = 33, "instanceof", "r r n24";
    InstanceofSub = 34, "instanceof_sub", "r r n24";
    GetField = 35, "get_field", "r r n24";
    SetField = 36, "set_field", "r r n24";
    GetIndex = 37, "get_index", "r r r";
    SetIndex = 38, "set_index", "r r r";
    DictNew = 39, "dict_new", "r";
    ArrNew = 40, "arr_new", "r n32";
    ArrPush = 41, "arr_push", "r r";
    BaClone = 42, "ba_clone", "r r";
    IfTrue = 43, "if_true", "r j32";
    IfFalse = 44, "if_false", "r j32";
    Jeq = 45, "jeq", "r r j24";
    Jne = 46, "jne", "r r j24";
    Jlt = 47, "jlt", "r r j24";
    Jle = 48, "jle", "r r j24";
    Jgt = 49, "jgt", "r r j24";
    Jge = 50, "jge", "r r j24";
    Jnlt = 51, "jnlt", "r r j24";
    Jnle = 52, "jnle", "r r j24";
    Jngt = 53, "jngt", "r r j24";
    Jnge = 54, "jnge", "r r j24";
    JeqImm16 = 55, "jeq_imm16", "r i j24";
    JneImm16 = 56, "jne_imm16", "r i j24";
    JltImm16 = 57, "jlt_imm16", "r i j24";
    JleImm16 = 58, "jle_imm16", "r i j24";
    JgtImm16 = 59, "jgt_imm16", "r i j24";
    JgeImm16 = 60, "jge_imm16", "r i j24";
    JnltImm16 = 61, "jnlt_imm16", "r i j24";
    JnleImm16 = 62, "jnle_imm16", "r i j24";
    JngtImm16 = 63, "jngt_imm16", "r i j24";
    JngeImm16 = 64, "jnge_imm16", "r i j24";
    Jmp = 65, "jmp", "j32";
    CallOpnd = 66, "call_opnd", "r n8 n24";
    CallHost = 67, "call_host", "n16 r n8";
    CallDirect = 68, "call_direct", "n24 r n8";
    CallPc = 69, "call_pc", "r n8 n24";
    CallMethod = 70, "call_method", "r n8 n24";
    CallMethodHost = 71, "call_method_host", "r n8 n8 n24";
    CallIdivInt = 72, "call_idiv_int", "r n8 n24";
    New = 73, "new", "n24 r n8";
    NewKnownCtor = 74, "new_known_ctor", "r n8 n24";
    Ret = 75, "ret", "r";
    RetImm40 = 76, "ret_imm40", "v";
}

impl TryFrom<u64> for Opcode {
    type Error = Error;
    fn try_from(number: u64) -> Result<Opcode, Error> {
        let at = usize::try_from(number).map_err(|_| Error::NoFit)?;
        Opcode::ALL.get(at).copied().ok_or(Error::NoFit)
    }
}

impl fmt::Display for Opcode {
    fn fmt(&self, f: &mut fmt::Formatter<'_>) -> fmt::Result {
        f.pad(self.name())
    }
}

/// An instruction as numbers: its opcode, and its operands in declared order, 0 where it has fewer.
///
/// ```
/// # use vosemaqe::*;
/// let add = Instruction { opcode: Opcode::AddImm16, operands: [1, 0, -5, 0, 0] };
/// assert_eq!(add.to_string(), "add_imm16 1, 0, -5");
/// ```
#[derive(Debug, Clone, Copy, PartialEq, Eq, Hash)]
pub struct Instruction {
    /// what it does
    pub opcode: Opcode,
    /// with what: a register, a slot or a number is 0 or more, a literal and a displacement may be negative
    pub operands: [i64; 5],
}

/// The name, and its operands after a space, with a comma between two.
impl fmt::Display for Instruction {
    fn fmt(&self, f: &mut fmt::Formatter<'_>) -> fmt::Result {
        f.write_str(self.opcode.name())?;
        let count = self.opcode.fields().split_whitespace().count();
        for (i, operand) in self.operands[..count].iter().enumerate() {
            write!(f, "{}{operand}", if i == 0 { " " } else { ", " })?;
        }
        Ok(())
    }
}
