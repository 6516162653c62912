//! Safe calls of `libvosemaqe.a`, whose functions are proved: node tables are checked, compiled to instruction words, evaluated and run.
//! `include/vosemaqe.h` says what each function gives on every input; here a number that is not 0 is an [`Error`].
//!
//! Nothing allocates, and nothing needs `std`. The caller lends slices, of any length and with any contents: whatever is lent, each function answers.
//!
//! ```
//! use vosemaqe::expr::local;
//! use vosemaqe::{compile, evaluate, pairs, run, Value};
//!
//! // feed energy back when the DC-link voltage is above its limit and braking is requested
//! let (voltage, limit, braking) = (local(0), local(1), local(2));
//! let mut words = [0; 4 * 5]; // four words for each of the five nodes
//! let table = voltage.gt(limit).and(braking).table(&mut words)?;
//!
//! // into at most four instruction words and one constant a node; three locals, no destination
//! let (mut code, mut slot_kinds, mut slot_payloads) = ([0; 20], [0; 5], [0; 5]);
//! let made = compile(table, 0, 3, None, &mut code, &mut slot_kinds, &mut slot_payloads)?;
//! assert_eq!((made.words, made.register, made.frame), (5, 3, 4));
//!
//! // 812.5 V against 750 V, braking, and a temporary
//! let (mut kinds, mut payloads) = pairs([812.5.into(), 750.0.into(), true.into(), Value::Nil]);
//! assert_eq!(evaluate(table, 0, 3, &kinds, &payloads)?, Value::Bool(true));
//!
//! // running the words gives the same, in the register that compiling named
//! run(&code[..made.words], 0, &mut kinds, &mut payloads, &slot_kinds, &slot_payloads, 5)?;
//! assert_eq!(Value::try_from((kinds[3], payloads[3]))?, Value::Bool(true));
//! # Ok::<(), vosemaqe::Error>(())
//! ```
#![no_std]
#![deny(missing_docs)]
#![allow(clippy::too_many_arguments)]

pub mod expr;
pub mod ffi;
mod opcode;
mod table;

use core::fmt;
pub use opcode::{Instruction, Opcode};
pub use table::{complete, Kind, Table};

/// The version of these declarations, 10000 * major + 100 * minor + patch. [`version`] gives that of the archive.
pub const VERSION: u32 = 100;

/// The version of the archive.
///
/// ```
/// assert_eq!(vosemaqe::version(), vosemaqe::VERSION);
/// ```
pub fn version() -> u32 {
    // SAFETY: it takes nothing.
    unsafe { ffi::vosemaqe_version() }
}

macro_rules! errors {
    ($($name:ident = $number:literal, $what:literal;)*) => {
        /// Why something was refused, or stopped.
        #[derive(Debug, Clone, Copy, PartialEq, Eq, Hash)]
        #[non_exhaustive]
        #[repr(u8)]
        pub enum Error {
            $(#[doc = $what] $name = $number),*
        }

        impl Error {
            /// The number, as the C boundary gives it.
            pub fn number(self) -> u8 {
                self as u8
            }
        }

        /// The error of a number, or the number itself where it is 0 or none of the library's.
        impl TryFrom<u8> for Error {
            type Error = u8;
            fn try_from(number: u8) -> Result<Error, u8> {
                match number {
                    $($number => Ok(Error::$name),)*
                    _ => Err(number),
                }
            }
        }

        impl fmt::Display for Error {
            fn fmt(&self, f: &mut fmt::Formatter<'_>) -> fmt::Result {
                f.pad(match self { $(Error::$name => $what),* })
            }
        }
    };
}

errors! {
    BadShape = 1, "table empty, not a multiple of 4 words, or over 65,536 nodes";
    BadNode = 2, "unknown kind, non-zero payload, a Float that is not finite, missing child, wrong first or depth, or last node's first not 0";
    TooDeep = 3, "depth over 200";
    NotLocal = 4, "Ref or destination not below the base";
    NoRegister = 5, "parameters plus locals, or an allocation, pass 65,535 registers";
    NoSlot = 6, "no constant slot left";
    NoRoom = 7, "no room for a word, or for a jump in a lent jump list";
    TooFar = 8, "displacement outside its field when patching";
    NoFit = 9, "an operand does not fit its field, or no such opcode";
    Undecoded = 10, "a word that does not decode";
    NotBranch = 11, "patching: not a branch";
    NoWord = 12, "patching: no word at the branch position";
    WrongKind = 20, "wrong kind of value";
    Overflow = 21, "integer result outside 64 bits signed";
    ModByZero = 22, "Mod by zero";
    NotExact = 23, "Int outside -2^53..2^53 meets a Float in Add, Sub or Mul, or stands in Div";
    BadShift = 24, "shift amount outside 0..63";
    BudgetSpent = 25, "budget spent";
    OutOfRange = 26, "register, slot, start, part or taken target out of range, or fewer locals than the base";
    PanicWord = 27, "panic word";
    NotRun = 28, "opcode not run here";
    IllFormed = 29, "ill-formed value lent";
}

impl core::error::Error for Error {}

/// `Ok` for 0. Every other number that the library gives is an `Error`'s.
fn done(number: u8) -> Result<(), Error> {
    if number == 0 {
        return Ok(());
    }
    Err(Error::try_from(number).unwrap_or_else(|n| unreachable!("no number of the library: {n}")))
}

/// A value. It is lent as a pair: a kind byte and a 64-bit payload.
///
/// ```
/// # use vosemaqe::{Error, Value};
/// assert_eq!(<(u8, u64)>::from(Value::Int(-1)), (2, u64::MAX));
/// assert_eq!(Value::try_from((3, 0x4089_6400_0000_0000)), Ok(812.5.into()));
/// assert_eq!(Value::try_from((1, 2)), Err(Error::IllFormed));
/// ```
#[derive(Debug, Clone, Copy, PartialEq)]
pub enum Value {
    /// kind 0, payload 0
    Nil,
    /// kind 1, payload 0 or 1
    Bool(bool),
    /// kind 2, payload two's complement
    Int(i64),
    /// kind 3, payload its bits
    Float(f64),
}

impl From<bool> for Value {
    fn from(b: bool) -> Value {
        Value::Bool(b)
    }
}

impl From<i64> for Value {
    fn from(n: i64) -> Value {
        Value::Int(n)
    }
}

impl From<f64> for Value {
    fn from(x: f64) -> Value {
        Value::Float(x)
    }
}

/// The kind and the payload.
impl From<Value> for (u8, u64) {
    fn from(value: Value) -> (u8, u64) {
        match value {
            Value::Nil => (0, 0),
            Value::Bool(b) => (1, b as u64),
            Value::Int(n) => (2, n as u64),
            Value::Float(x) => (3, x.to_bits()),
        }
    }
}

/// The value of a pair, or `IllFormed`.
impl TryFrom<(u8, u64)> for Value {
    type Error = Error;
    fn try_from(pair: (u8, u64)) -> Result<Value, Error> {
        match pair {
            (0, 0) => Ok(Value::Nil),
            (1, 0 | 1) => Ok(Value::Bool(pair.1 == 1)),
            (2, n) => Ok(Value::Int(n as i64)),
            (3, bits) => Ok(Value::Float(f64::from_bits(bits))),
            _ => Err(Error::IllFormed),
        }
    }
}

/// The kinds and the payloads of some values, as registers and slots are lent.
pub fn pairs<const N: usize>(values: [Value; N]) -> ([u8; N], [u64; N]) {
    let pairs = values.map(<(u8, u64)>::from);
    (pairs.map(|p| p.0), pairs.map(|p| p.1))
}

/// What compiling gives.
#[derive(Debug, Clone, Copy, PartialEq, Eq)]
pub struct Compiled {
    /// how many words
    pub words: usize,
    /// how many constants, no two of them equal
    pub slots: usize,
    /// the register that holds the value after a run
    pub register: usize,
    /// how many registers a run needs
    pub frame: usize,
}

/// How far a run came.
#[derive(Debug, Clone, Copy, PartialEq, Eq)]
pub struct Ran {
    /// steps taken
    pub steps: u64,
    /// the stopping word's position, or the number of words when done
    pub position: usize,
}

/// A run that stopped: why, and where. The stopping step is not counted, and wrote nothing.
#[derive(Debug, Clone, Copy, PartialEq, Eq)]
pub struct Stopped {
    /// why
    pub error: Error,
    /// how far it came
    pub ran: Ran,
}

impl fmt::Display for Stopped {
    fn fmt(&self, f: &mut fmt::Formatter<'_>) -> fmt::Result {
        write!(f, "{} at word {}", self.error, self.ran.position)
    }
}

impl core::error::Error for Stopped {}

/// Why it stopped.
impl From<Stopped> for Error {
    fn from(stopped: Stopped) -> Error {
        stopped.error
    }
}

/// 0 for none, r + 1 for register r. Register 2^64 - 1 becomes the one before it, which is over every limit too.
fn dest_of(dest: Option<u64>) -> u64 {
    dest.map_or(0, |r| r.saturating_add(1))
}

/// Checks a table, its layout and its destination, as [`compile`] does first. A table that passes is refused only for want of registers, slots or words.
pub fn check(nodes: &[u64], params: u64, locals: u64, dest: Option<u64>) -> Result<(), Error> {
    // SAFETY: the slice is valid for its length, and only read.
    done(unsafe { ffi::vosemaqe_check(nodes.as_ptr(), nodes.len(), params, locals, dest_of(dest)) })
}

/// Compiles a table into lent words and constants: at most four words and one constant a node. What follows them is zeroed; on a refusal all of it is.
pub fn compile(
    nodes: &[u64],
    params: u64,
    locals: u64,
    dest: Option<u64>,
    code: &mut [u64],
    slot_kinds: &mut [u8],
    slot_payloads: &mut [u64],
) -> Result<Compiled, Error> {
    let (mut words, mut slots, mut reg, mut frame) = (0, 0, 0, 0);
    // SAFETY: each slice is valid for its length; those written are lent as `&mut`, so nothing overlaps them.
    done(unsafe {
        ffi::vosemaqe_compile(
            nodes.as_ptr(),
            nodes.len(),
            params,
            locals,
            dest_of(dest),
            code.as_mut_ptr(),
            code.len(),
            slot_kinds.as_mut_ptr(),
            slot_kinds.len(),
            slot_payloads.as_mut_ptr(),
            slot_payloads.len(),
            &mut words,
            &mut slots,
            &mut reg,
            &mut frame,
        )
    })?;
    Ok(Compiled {
        words: words as usize,
        slots: slots as usize,
        register: reg as usize,
        frame: frame as usize,
    })
}

/// The same with a lent jump list. Half as many places as nodes, rounded up, are always enough; where it runs out the answer is `NoRoom`. It is left zero.
///
/// ```
/// # use vosemaqe::*;
/// # use vosemaqe::expr::local;
/// let (mut words, mut code, mut jumps) = ([0; 12], [0; 12], [7; 2]);
/// let table = local(0).or(local(1)).table(&mut words)?;
/// let made = compile_with(table, 2, 0, Some(0), &mut code, &mut [], &mut [], &mut jumps)?;
/// assert_eq!((made.register, jumps), (0, [0; 2]));
/// let short = compile_with(table, 2, 0, None, &mut code, &mut [], &mut [], &mut []);
/// assert_eq!((short, code), (Err(Error::NoRoom), [0; 12]));
/// # Ok::<(), Error>(())
/// ```
pub fn compile_with(
    nodes: &[u64],
    params: u64,
    locals: u64,
    dest: Option<u64>,
    code: &mut [u64],
    slot_kinds: &mut [u8],
    slot_payloads: &mut [u64],
    jumps: &mut [u64],
) -> Result<Compiled, Error> {
    let (mut words, mut slots, mut reg, mut frame) = (0, 0, 0, 0);
    // SAFETY: as for `compile`.
    done(unsafe {
        ffi::vosemaqe_compile_with(
            nodes.as_ptr(),
            nodes.len(),
            params,
            locals,
            dest_of(dest),
            code.as_mut_ptr(),
            code.len(),
            slot_kinds.as_mut_ptr(),
            slot_kinds.len(),
            slot_payloads.as_mut_ptr(),
            slot_payloads.len(),
            jumps.as_mut_ptr(),
            jumps.len(),
            &mut words,
            &mut slots,
            &mut reg,
            &mut frame,
        )
    })?;
    Ok(Compiled {
        words: words as usize,
        slots: slots as usize,
        register: reg as usize,
        frame: frame as usize,
    })
}

/// The value of a table on its locals, by its tree and not by its words.
pub fn evaluate(
    nodes: &[u64],
    params: u64,
    locals: u64,
    kinds: &[u8],
    payloads: &[u64],
) -> Result<Value, Error> {
    let (mut kind, mut payload) = (0, 0);
    // SAFETY: the slices are valid for their lengths, and only read.
    done(unsafe {
        ffi::vosemaqe_evaluate(
            nodes.as_ptr(),
            nodes.len(),
            params,
            locals,
            kinds.as_ptr(),
            kinds.len(),
            payloads.as_ptr(),
            payloads.len(),
            &mut kind,
            &mut payload,
        )
    })?;
    Ok(Value::try_from((kind as u8, payload))
        .unwrap_or_else(|_| unreachable!("the library gives well-formed values")))
}

fn ran(number: u8, steps: u64, position: u64) -> Result<Ran, Stopped> {
    let ran = Ran {
        steps,
        position: position as usize,
    };
    done(number)
        .map(|()| ran)
        .map_err(|error| Stopped { error, ran })
}

/// Runs words from a start, 0 for a compiled expression, on lent registers and slots, at most `budget` steps.
pub fn run(
    words: &[u64],
    start: usize,
    kinds: &mut [u8],
    payloads: &mut [u64],
    slot_kinds: &[u8],
    slot_payloads: &[u64],
    budget: u64,
) -> Result<Ran, Stopped> {
    let (mut steps, mut position) = (0, 0);
    // SAFETY: as for `compile`.
    let number = unsafe {
        ffi::vosemaqe_run(
            words.as_ptr(),
            words.len(),
            start,
            kinds.as_mut_ptr(),
            kinds.len(),
            payloads.as_mut_ptr(),
            payloads.len(),
            slot_kinds.as_ptr(),
            slot_kinds.len(),
            slot_payloads.as_ptr(),
            slot_payloads.len(),
            budget,
            &mut steps,
            &mut position,
        )
    };
    ran(number, steps, position)
}

/// Runs the words of a store from `entry` to `end`; the position counts from the entry.
pub fn run_part(
    store: &[u64],
    entry: usize,
    end: usize,
    kinds: &mut [u8],
    payloads: &mut [u64],
    slot_kinds: &[u8],
    slot_payloads: &[u64],
    budget: u64,
) -> Result<Ran, Stopped> {
    let (mut steps, mut position) = (0, 0);
    // SAFETY: as for `compile`.
    let number = unsafe {
        ffi::vosemaqe_run_part(
            store.as_ptr(),
            store.len(),
            entry,
            end,
            kinds.as_mut_ptr(),
            kinds.len(),
            payloads.as_mut_ptr(),
            payloads.len(),
            slot_kinds.as_ptr(),
            slot_kinds.len(),
            slot_payloads.as_ptr(),
            slot_payloads.len(),
            budget,
            &mut steps,
            &mut position,
        )
    };
    ran(number, steps, position)
}

/// The opcode and the operands of a word.
///
/// ```
/// # use vosemaqe::*;
/// let i = decode(5_497_558_139_159)?;
/// assert_eq!(i.to_string(), "add_imm16 1, 0, 5");
/// assert_eq!(encode(i)?, 5_497_558_139_159);
/// assert_eq!(decode(77), Err(Error::Undecoded));
/// let too_large = Instruction { operands: [1, 0, 32_768, 0, 0], ..i };
/// assert_eq!(encode(too_large), Err(Error::NoFit));
/// # Ok::<(), Error>(())
/// ```
pub fn decode(word: u64) -> Result<Instruction, Error> {
    let (mut opcode, [mut a, mut b, mut c, mut d, mut e]) = (0, [0; 5]);
    // SAFETY: the cells are locals.
    done(unsafe {
        ffi::vosemaqe_decode(word, &mut opcode, &mut a, &mut b, &mut c, &mut d, &mut e)
    })?;
    let opcode = Opcode::try_from(opcode)
        .unwrap_or_else(|_| unreachable!("the library gives opcodes up to 76"));
    Ok(Instruction {
        opcode,
        operands: [a, b, c, d, e].map(|x| x as i64),
    })
}

/// The word of an instruction, the inverse of [`decode`].
pub fn encode(i: Instruction) -> Result<u64, Error> {
    let (mut word, [a, b, c, d, e]) = (0, i.operands.map(|x| x as u64));
    // SAFETY: the cell is a local.
    done(unsafe { ffi::vosemaqe_encode(i.opcode as u64, a, b, c, d, e, &mut word) })?;
    Ok(word)
}

/// Aims the branch at a position at a target. Changes one word, or none.
///
/// ```
/// # use vosemaqe::*;
/// let jmp = encode(Instruction { opcode: Opcode::Jmp, operands: [0; 5] })?;
/// let mut words = [jmp; 2];
/// patch(&mut words, 1, 0)?;
/// assert_eq!(decode(words[1])?.to_string(), "jmp -2");
/// assert_eq!(patch(&mut words, 2, 0), Err(Error::NoWord));
/// # Ok::<(), Error>(())
/// ```
pub fn patch(words: &mut [u64], at: usize, target: u64) -> Result<(), Error> {
    // SAFETY: the slice is valid for its length, and lent as `&mut`.
    done(unsafe { ffi::vosemaqe_patch(words.as_mut_ptr(), words.len(), at, target) })
}
