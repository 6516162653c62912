//! The exported functions as they are; `include/vosemaqe.h` is their manual.
#![allow(clippy::too_many_arguments)]

#[cfg(not(target_pointer_width = "64"))]
compile_error!("lengths and positions are 64 bits wide in the library: usize has to be, too");

extern "C" {
    /// The version of the library.
    pub fn vosemaqe_version() -> u32;
    /// Fills in first and depth.
    pub fn vosemaqe_complete(nodes: *mut u64, nodes_len: usize);
    /// The number of a table with its layout and destination.
    pub fn vosemaqe_check(
        nodes: *const u64,
        nodes_len: usize,
        params: u64,
        locals: u64,
        dest: u64,
    ) -> u8;
    /// Compiles a table.
    pub fn vosemaqe_compile(
        nodes: *const u64,
        nodes_len: usize,
        params: u64,
        locals: u64,
        dest: u64,
        code: *mut u64,
        code_len: usize,
        slot_kinds: *mut u8,
        slot_kinds_len: usize,
        slot_payloads: *mut u64,
        slot_payloads_len: usize,
        words: *mut u64,
        slots: *mut u64,
        reg: *mut u64,
        frame: *mut u64,
    ) -> u8;
    /// Compiles a table with a lent jump list.
    pub fn vosemaqe_compile_with(
        nodes: *const u64,
        nodes_len: usize,
        params: u64,
        locals: u64,
        dest: u64,
        code: *mut u64,
        code_len: usize,
        slot_kinds: *mut u8,
        slot_kinds_len: usize,
        slot_payloads: *mut u64,
        slot_payloads_len: usize,
        jumps: *mut u64,
        jumps_len: usize,
        words: *mut u64,
        slots: *mut u64,
        reg: *mut u64,
        frame: *mut u64,
    ) -> u8;
    /// The value of a table on its locals.
    pub fn vosemaqe_evaluate(
        nodes: *const u64,
        nodes_len: usize,
        params: u64,
        locals: u64,
        kinds: *const u8,
        kinds_len: usize,
        payloads: *const u64,
        payloads_len: usize,
        kind: *mut u64,
        payload: *mut u64,
    ) -> u8;
    /// Runs words from a start.
    pub fn vosemaqe_run(
        words: *const u64,
        words_len: usize,
        start: usize,
        kinds: *mut u8,
        kinds_len: usize,
        payloads: *mut u64,
        payloads_len: usize,
        slot_kinds: *const u8,
        slot_kinds_len: usize,
        slot_payloads: *const u64,
        slot_payloads_len: usize,
        budget: u64,
        steps: *mut u64,
        position: *mut u64,
    ) -> u8;
    /// Runs the words of a store from an entry to an end.
    pub fn vosemaqe_run_part(
        store: *const u64,
        store_len: usize,
        entry: usize,
        end: usize,
        kinds: *mut u8,
        kinds_len: usize,
        payloads: *mut u64,
        payloads_len: usize,
        slot_kinds: *const u8,
        slot_kinds_len: usize,
        slot_payloads: *const u64,
        slot_payloads_len: usize,
        budget: u64,
        steps: *mut u64,
        position: *mut u64,
    ) -> u8;
    /// The opcode and the operands of a word.
    pub fn vosemaqe_decode(
        word: u64,
        opcode: *mut u64,
        a: *mut u64,
        b: *mut u64,
        c: *mut u64,
        d: *mut u64,
        e: *mut u64,
    ) -> u8;
    /// The word of an opcode and its operands.
    pub fn vosemaqe_encode(
        opcode: u64,
        a: u64,
        b: u64,
        c: u64,
        d: u64,
        e: u64,
        word: *mut u64,
    ) -> u8;
    /// Aims a branch.
    pub fn vosemaqe_patch(words: *mut u64, words_len: usize, at: usize, target: u64) -> u8;
}
