//! Stand-in for vm.rs, which is not given: only what the given codegen.rs
//! asks of `Actor`. Room is limited so that document 01's 6 and 7 can be
//! met; the numbers travel as panic payloads, as codegen.rs has no error
//! path of its own there.
use crate::alloc::Alloc;
use crate::insns::Insn;
use crate::lexer::SrcPos;
use crate::value::Value;
use tables::Refused;

pub struct Actor
{
    pub insns: Vec<Insn>,
    pub alloc: Alloc,
    pub consts: Vec<Value>,
    pub max_words: usize,
    pub max_slots: usize,
    /// whether equal constants share a slot (02, W2)
    pub shares: bool,
    /// the slots by their constants, in place of a search; for timing
    pub index: Option<std::collections::HashMap<(u8, u64), u32>>,
}

impl Actor
{
    pub fn new() -> Self
    {
        Actor { insns: vec![], alloc: Alloc::new(), consts: vec![], max_words: usize::MAX, max_slots: usize::MAX, shares: crate::SHARES, index: None }
    }

    pub fn push_insn(&mut self, insn: Insn, _pos: SrcPos)
    {
        if self.insns.len() >= self.max_words { std::panic::panic_any(Refused(7)) }
        self.insns.push(insn);
    }

    /// (house) the first slot of the same kind and payload, bit for bit, or a fresh one
    pub fn push_const(&mut self, val: Value) -> u32
    {
        if let Some(&slot) = self.index.as_ref().and_then(|x| x.get(&crate::pair(val))) { return slot }
        if self.shares && self.index.is_none() {
            let same = |c: &Value| crate::pair(*c) == crate::pair(val);
            if let Some(slot) = self.consts.iter().position(same) { return slot as u32 }
        }
        if self.consts.len() >= self.max_slots { std::panic::panic_any(Refused(6)) }
        let slot = self.consts.len() as u32;
        self.consts.push(val);
        if let Some(x) = &mut self.index { x.insert(crate::pair(val), slot); }
        slot
    }

    pub fn gc_check(&mut self, _bytes: usize, _roots: &mut [&mut Value]) {}
    pub fn global_value(&self, _idx: u32) -> Option<Value> { unreachable!() }
    pub fn new_prop_cache(&mut self, _name: &str) -> u32 { unreachable!() }
    pub fn new_call_cache(&mut self, _name: &str) -> u32 { unreachable!() }
}
