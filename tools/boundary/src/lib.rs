//! The proved library as a C caller meets it, and the buffers that such a
//! caller lends. Everything here goes through the exported functions.
pub mod shapes;
use std::cell::Cell;
use tables::meaning::Ran;
use tables::{Compiled, Job, Refused};

mod c {
    extern "C" {
        pub fn vosemaqe_check(nodes: *const u64, nodes_len: usize, params: u64, locals: u64, dest: u64) -> u8;
        pub fn vosemaqe_compile(
            nodes: *const u64, nodes_len: usize, params: u64, locals: u64, dest: u64,
            code: *mut u64, code_len: usize, slot_kinds: *mut u8, slot_kinds_len: usize, slot_payloads: *mut u64, slot_payloads_len: usize,
            words: *mut u64, slots: *mut u64, reg: *mut u64, frame: *mut u64) -> u8;
        pub fn vosemaqe_compile_with(
            nodes: *const u64, nodes_len: usize, params: u64, locals: u64, dest: u64,
            code: *mut u64, code_len: usize, slot_kinds: *mut u8, slot_kinds_len: usize, slot_payloads: *mut u64, slot_payloads_len: usize,
            jumps: *mut u64, jumps_len: usize,
            words: *mut u64, slots: *mut u64, reg: *mut u64, frame: *mut u64) -> u8;
        pub fn vosemaqe_evaluate(
            nodes: *const u64, nodes_len: usize, params: u64, locals: u64,
            kinds: *const u8, kinds_len: usize, payloads: *const u64, payloads_len: usize,
            kind: *mut u64, payload: *mut u64) -> u8;
        pub fn vosemaqe_run(
            words: *const u64, words_len: usize, start: u64,
            kinds: *mut u8, kinds_len: usize, payloads: *mut u64, payloads_len: usize,
            slot_kinds: *const u8, slot_kinds_len: usize, slot_payloads: *const u64, slot_payloads_len: usize,
            budget: u64, steps: *mut u64, position: *mut u64) -> u8;
        pub fn vosemaqe_run_part(
            store: *const u64, store_len: usize, entry: u64, end: u64,
            kinds: *mut u8, kinds_len: usize, payloads: *mut u64, payloads_len: usize,
            slot_kinds: *const u8, slot_kinds_len: usize, slot_payloads: *const u64, slot_payloads_len: usize,
            budget: u64, steps: *mut u64, position: *mut u64) -> u8;
    }
}

/// The functions' addresses, for callers that bring a stack of their own:
/// compile, compile_with, evaluate, run, run_part, check.
pub fn addresses() -> [usize; 6] {
    [c::vosemaqe_compile as *const (), c::vosemaqe_compile_with as *const (), c::vosemaqe_evaluate as *const (), c::vosemaqe_run as *const (),
        c::vosemaqe_run_part as *const (), c::vosemaqe_check as *const ()].map(|f| f as usize)
}

/// What a lent buffer or a result holds before the call: no zero, and
/// another each time.
pub trait Fill: Copy + PartialEq + Default { fn fill() -> Self; }
thread_local! { static TURN: Cell<u8> = const { Cell::new(0) } }
fn turn() -> u8 { TURN.with(|t| { t.set(t.get() % 255 + 1); t.get() }) }
impl Fill for u8 { fn fill() -> u8 { turn() } }
impl Fill for u64 { fn fill() -> u64 { turn() as u64 * 0x0101_0101_0101_0101 } }

/// A lent buffer between two margins that nothing may touch.
pub struct Lent<T> { all: Vec<T>, fill: T }
const MARGIN: usize = 4;

impl<T: Fill> Lent<T> {
    pub fn new(len: usize) -> Self {
        let fill = T::fill();
        Lent { all: vec![fill; len + 2 * MARGIN], fill }
    }
    pub fn of(what: &[T]) -> Self {
        let mut l = Self::new(what.len());
        l.all[MARGIN..MARGIN + what.len()].copy_from_slice(what);
        l
    }
    pub fn part(&self) -> &[T] { &self.all[MARGIN..self.all.len() - MARGIN] }
    pub fn part_mut(&mut self) -> &mut [T] { let n = self.all.len(); &mut self.all[MARGIN..n - MARGIN] }
    /// It begins with these, then come zeros, and the margins are as they were.
    pub fn holds(&self, first: impl ExactSizeIterator<Item = T>) -> bool {
        let (n, zeros) = (first.len(), self.part().get(first.len()..));
        zeros.is_some_and(|z| z.iter().all(|x| *x == T::default())) && self.part()[..n].iter().copied().eq(first) && self.margins()
    }
    /// One byte of a margin is another: what the library must not do.
    pub fn spoil(&mut self, after: usize) { let at = after * (self.all.len() - 1); self.all[at] = T::default() }
    pub fn margins(&self) -> bool {
        let n = self.all.len();
        self.all[..MARGIN].iter().chain(&self.all[n - MARGIN..]).all(|x| *x == self.fill)
    }
}

/// Lengths of the buffers lent to a compile; with a jump list it is
/// `vosemaqe_compile_with`.
#[derive(Debug, Clone, Copy)]
pub struct Room { pub words: usize, pub kinds: usize, pub payloads: usize, pub jumps: Option<usize> }

impl Room {
    pub fn new(words: usize, slots: usize) -> Room { Room { words, kinds: slots, payloads: slots, jumps: None } }
    pub fn slots(&self) -> usize { self.kinds.min(self.payloads) }
}

pub fn dest(dst: Option<u64>) -> u64 { dst.map_or(0, |d| d + 1) }

pub fn check(j: &Job) -> u8 {
    unsafe { c::vosemaqe_check(j.table.as_ptr(), j.table.len(), j.params, j.locals, dest(j.dst)) }
}

/// A compile's buffers and results.
pub struct Made {
    pub number: u8,
    /// words, slots, register, frame
    pub results: [u64; 4],
    pub code: Lent<u64>,
    pub kinds: Lent<u8>,
    pub payloads: Lent<u64>,
    pub jumps: Option<Lent<u64>>,
}

impl Made {
    pub fn lend(room: Room) -> Made {
        Made { number: 0, results: [u64::fill(); 4], code: Lent::new(room.words), kinds: Lent::new(room.kinds), payloads: Lent::new(room.payloads), jumps: room.jumps.map(Lent::new) }
    }

    pub fn compile(&mut self, j: &Job) {
        let (code, kinds, payloads) = (self.code.part_mut(), self.kinds.part_mut(), self.payloads.part_mut());
        let [words, slots, reg, frame] = &mut self.results;
        self.number = match &mut self.jumps {
            None => unsafe { c::vosemaqe_compile(j.table.as_ptr(), j.table.len(), j.params, j.locals, dest(j.dst),
                code.as_mut_ptr(), code.len(), kinds.as_mut_ptr(), kinds.len(), payloads.as_mut_ptr(), payloads.len(), words, slots, reg, frame) },
            Some(jumps) => { let jumps = jumps.part_mut(); unsafe { c::vosemaqe_compile_with(j.table.as_ptr(), j.table.len(), j.params, j.locals, dest(j.dst),
                code.as_mut_ptr(), code.len(), kinds.as_mut_ptr(), kinds.len(), payloads.as_mut_ptr(), payloads.len(), jumps.as_mut_ptr(), jumps.len(), words, slots, reg, frame) } }
        };
    }

    /// Number, results and every lent byte are what document 01 says for
    /// this answer.
    pub fn is(&self, want: &Result<Compiled, Refused>) -> bool {
        let nothing = Compiled { words: vec![], consts: vec![], reg: 0, frame: 0 };
        let (number, c) = match want { Ok(c) => (0, c), Err(Refused(n)) => (*n, &nothing) };
        self.number == number
            && self.results == [c.words.len() as u64, c.consts.len() as u64, c.reg as u64, c.frame as u64]
            && self.code.holds(c.words.iter().copied())
            && self.kinds.holds(c.consts.iter().map(|p| p.0))
            && self.payloads.holds(c.consts.iter().map(|p| p.1))
            && self.jumps.as_ref().is_none_or(|j| j.holds([].into_iter()))
    }

    /// The answer in the oracle's form.
    pub fn answer(&self) -> Result<Compiled, Refused> {
        if self.number != 0 { return Err(Refused(self.number)) }
        let [words, slots, reg, frame] = self.results;
        let consts = self.kinds.part().iter().copied().zip(self.payloads.part().iter().copied()).take(slots as usize).collect();
        Ok(Compiled { words: self.code.part()[..words as usize].to_vec(), consts, reg: reg as u16, frame: frame as u16 })
    }
}

/// Number, kind, payload.
pub fn evaluate(j: &Job, kinds: &[u8], payloads: &[u64]) -> (u8, u64, u64) {
    let (mut kind, mut payload) = (u64::fill(), u64::fill());
    let n = unsafe { c::vosemaqe_evaluate(j.table.as_ptr(), j.table.len(), j.params, j.locals, kinds.as_ptr(), kinds.len(), payloads.as_ptr(), payloads.len(), &mut kind, &mut payload) };
    (n, kind, payload)
}

pub fn run(words: &[u64], start: u64, kinds: &mut [u8], payloads: &mut [u64], slot_kinds: &[u8], slot_payloads: &[u64], budget: u64) -> Ran {
    let (mut steps, mut pos) = (u64::fill(), u64::fill());
    let number = unsafe { c::vosemaqe_run(words.as_ptr(), words.len(), start, kinds.as_mut_ptr(), kinds.len(), payloads.as_mut_ptr(), payloads.len(),
        slot_kinds.as_ptr(), slot_kinds.len(), slot_payloads.as_ptr(), slot_payloads.len(), budget, &mut steps, &mut pos) };
    Ran { number, steps, pos }
}

pub fn run_part(store: &[u64], entry: u64, end: u64, kinds: &mut [u8], payloads: &mut [u64], slot_kinds: &[u8], slot_payloads: &[u64], budget: u64) -> Ran {
    let (mut steps, mut pos) = (u64::fill(), u64::fill());
    let number = unsafe { c::vosemaqe_run_part(store.as_ptr(), store.len(), entry, end, kinds.as_mut_ptr(), kinds.len(), payloads.as_mut_ptr(), payloads.len(),
        slot_kinds.as_ptr(), slot_kinds.len(), slot_payloads.as_ptr(), slot_payloads.len(), budget, &mut steps, &mut pos) };
    Ran { number, steps, pos }
}
