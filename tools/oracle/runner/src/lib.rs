//! What the programs share: the known differences in emission, and the
//! register contents that random jobs are run on.
use tables::gen::{float, holds, int, Holds, Rng};
use tables::meaning::V;
use tables::opcodes::{pack, unpack, OPCODES};
use tables::*;

/// The published answer rewritten into the house answer, or none if a word
/// is not one that the generator emits. `shared`: equal constants share a
/// slot. `seen` collects the differences met.
pub fn rewrite(c: &Compiled, shared: bool, seen: &mut Vec<&'static str>) -> Option<Compiled> {
    let mut out = Compiled { words: vec![], consts: vec![], reg: c.reg, frame: c.frame };
    for w in &c.words {
        let (mut op, mut v) = unpack(*w, true)?;
        match OPCODES[op].0 {
            // slots are handed out in emission order in both modes
            "load_const" => v[1] = slot(&mut out.consts, c.consts[v[1] as usize], shared, seen),
            "load_imm40" if v[1] & 3 == 0 => {}
            "load_imm40" if v[1] & 3 == 2 => {
                seen.push("Float in load_imm40");
                op += 2;
                v[1] = slot(&mut out.consts, published::pair(published::value::Value::from_raw_bits(v[1] as u64)), shared, seen);
            }
            "load_imm40" => {
                seen.push("raw bits of Nil, False, True");
                v[1] = match v[1] { 0x05 => 1, 0x15 => 5, 0x1D => 9, _ => return None };
            }
            _ => {}
        }
        let upward = pack(op, &v, false)?;
        if upward != pack(op, &v, true)? { seen.push("last field at the top") }
        out.words.push(upward);
    }
    Some(out)
}

/// Whether the list of differences makes the published answer to a job the
/// house answer, to the last bit.
pub fn explained(h: &mut house::Oracle, job: &Job, published: &Result<Compiled, Refused>, house: &Result<Compiled, Refused>, seen: &mut Vec<&'static str>) -> bool {
    if let (Ok(a), Ok(b)) = (published, house) { return rewrite(a, true, seen).as_ref() == Some(b) }
    let fresh = unshared(h, job);
    as_published(h, job, published, &fresh, seen) && shared(h, job, &fresh, house, seen)
}

/// The house answer where each constant takes a fresh slot.
fn unshared(h: &mut house::Oracle, job: &Job) -> Result<Compiled, Refused> {
    h.actor.shares = false;
    let answer = h.compile(job);
    h.actor.shares = true;
    answer
}

/// The published answer against the house answer with fresh slots.
fn as_published(h: &mut house::Oracle, job: &Job, published: &Result<Compiled, Refused>, fresh: &Result<Compiled, Refused>, seen: &mut Vec<&'static str>) -> bool {
    if let (Ok(a), Ok(b)) = (published, fresh) { return rewrite(a, false, seen).as_ref() == Some(b) }
    let Some(fewer) = fewer_slots(job) else { return matches!((published, fresh), (Err(x), Err(y)) if x == y) };
    // the published mode asks for fewer slots: where house gives 6 it goes on, and gives what house gives with those slots not asked for
    match (published, unshared(h, &fewer)) {
        (Err(x), Err(y)) => {
            if Err(y) != *fresh { seen.push("Float in load_imm40 (slots run out)") }
            *x == y && (Err(y) == *fresh || *fresh == Err(Refused(6)))
        }
        (Ok(a), Ok(_)) => {
            seen.push("Float in load_imm40 (slots run out)");
            *fresh == Err(Refused(6)) && rewrite(a, false, seen) == unshared(h, &Job { max_slots: usize::MAX, ..job.clone() }).ok()
        }
        _ => false,
    }
}

/// The house answer with fresh slots against the one with shared slots: where
/// fresh slots run out, sharing goes on to what there is with slots enough, or
/// to 6 where the distinct constants are too many as well.
fn shared(h: &mut house::Oracle, job: &Job, fresh: &Result<Compiled, Refused>, house: &Result<Compiled, Refused>, seen: &mut Vec<&'static str>) -> bool {
    match fresh {
        Ok(a) => house.as_ref().ok() == Some(&share(a, seen)),
        Err(Refused(6)) => match unshared(h, &Job { max_slots: usize::MAX, ..job.clone() }) {
            Ok(a) => {
                let all = share(&a, seen);
                let fits = all.consts.len() <= job.max_slots;
                if fits { seen.push("equal constants share a slot (slots suffice)") }
                if fits { house.as_ref().ok() == Some(&all) } else { *house == Err(Refused(6)) }
            }
            later => *house == Err(Refused(6)) || *house == later,
        },
        same => house == same,
    }
}

/// A house answer with fresh slots, its equal constants put in one slot.
fn share(c: &Compiled, seen: &mut Vec<&'static str>) -> Compiled {
    let mut out = Compiled { words: vec![], consts: vec![], reg: c.reg, frame: c.frame };
    for w in &c.words {
        let (op, mut v) = unpack(*w, false).expect("a word of the house");
        if OPCODES[op].0 == "load_const" { v[1] = slot(&mut out.consts, c.consts[v[1] as usize], true, seen) }
        out.words.push(pack(op, &v, false).expect("a slot before it"));
    }
    out
}

/// The job with a Nil for each Float that the published mode puts in
/// load_imm40: like it a Nil takes a register and a word, no slot, and no part
/// in a fold. None where the table has no such Float.
fn fewer_slots(job: &Job) -> Option<Job> {
    let mut fewer = job.clone();
    let mut any = false;
    for n in fewer.table.chunks_exact_mut(4).filter(|n| n[0] == FLOAT && in_immediate(n[1])) { (n[0], n[1], any) = (NIL, 0, true) }
    any.then_some(fewer)
}

/// The house answer to a job whose jump list is lent, with so many places.
/// The Rust has no such list, so its answer holds until a jump finds no place.
pub fn with_list(h: &mut house::Oracle, job: &Job, places: usize) -> Result<Compiled, Refused> {
    let answer = h.compile(job);
    if check(&job.table, job.params, job.locals, job.dst) != 0 { return answer }
    let Some(jump) = jumps::taken(&job.table).iter().position(|n| *n > places) else { return answer };
    if let Err(Refused(5 | 6)) = answer {
        // words that stood when the Rust refused, and when the jump is asked for: a register and a slot are asked for before the word
        let stood = h.actor.insns.len();
        if branch_at(h, job, jump) >= stood { return answer }
    }
    Err(Refused(7))
}

/// The position of a conditional branch, counted from 0, where there is room
/// for all. Few registers give the same words but for their numbers, as long
/// as a Ref is the destination where it was.
fn branch_at(h: &mut house::Oracle, job: &Job, which: usize) -> usize {
    let job = Job { params: 2, locals: 0, dst: job.dst.map(|_| 0), max_words: usize::MAX, max_slots: usize::MAX, table: rename(&job.table, job.dst) };
    let c = h.compile(&job).expect("a checked table with room for all");
    let conditional = |w: &u64| { let (op, _) = unpack(*w, false).unwrap(); OPCODES[op].0 != "jmp" && OPCODES[op].1.last().is_some_and(|f| f.is_disp()) };
    c.words.iter().enumerate().filter(|(_, w)| conditional(w)).nth(which).expect("a jump of the table").0
}

/// Each Ref to the destination is a Ref to register 0, every other to 1.
fn rename(table: &[u64], dst: Option<u64>) -> Vec<u64> {
    let mut t = table.to_vec();
    for n in t.chunks_exact_mut(4).filter(|n| n[0] == REF) { n[1] = (Some(n[1]) != dst) as u64 }
    t
}

/// The slot of a constant: the first that holds it if slots are shared, or a new one.
fn slot(consts: &mut Vec<(u8, u64)>, pair: (u8, u64), shared: bool, seen: &mut Vec<&'static str>) -> i64 {
    if let Some(at) = consts.iter().position(|c| shared && *c == pair) {
        seen.push("equal constants share a slot");
        return at as i64
    }
    consts.push(pair);
    consts.len() as i64 - 1
}

/// Whether the published Rust carries this Float in load_imm40.
pub fn in_immediate(bits: u64) -> bool {
    let Some(v) = published::value::Value::try_flonum(f64::from_bits(bits)) else { return false };
    let raw = v.raw_bits();
    (((raw << 24) as i64 >> 24) as u64) == raw
}

/// What register `reg` holds: mostly what the generator took it to hold, and
/// often a literal of the tree, so that comparisons meet equal sides.
pub fn local(r: &mut Rng, table: &[u64], reg: u64) -> V {
    if r.chance(5) { return [V::Nil, V::Bool(true), V::Int(int(r)), V::Float(f64::from_bits(float(r)))][r.below(4) as usize] }
    let at = 4 * r.below(table.len() as u64 / 4) as usize;
    match holds(reg) {
        Holds::Bool => V::Bool(r.chance(50)),
        Holds::Int if table[at] == INT => V::Int(table[at + 1] as i64),
        Holds::Int if r.chance(20) => V::Int(int(r)),
        Holds::Int => V::Int(r.below(200) as i64 - 100),
        Holds::Float if table[at] == FLOAT => V::Float(f64::from_bits(table[at + 1])),
        Holds::Float => V::Float(f64::from_bits(float(r))),
    }
}

/// The program's arguments as numbers, or the defaults.
pub fn numbers<const N: usize>(defaults: [u64; N]) -> [u64; N] {
    let mut out = defaults;
    for (o, a) in out.iter_mut().zip(std::env::args().skip(1)) { *o = a.parse().expect("a number") }
    out
}

/// The given Rust and the shims refuse by panicking, which the oracle turns
/// into numbers; only a panic of the programs' own is shown.
pub fn quiet() {
    std::panic::set_hook(Box::new(|info| {
        let ours = info.location().is_some_and(|l| l.file().starts_with("src/") || ["runner/src/", "tables/src/"].iter().any(|f| l.file().contains(f)));
        if ours { eprintln!("{info}") }
    }))
}

/// A program's last line, and its status.
pub fn finish(line: String, failures: usize) -> ! {
    println!("{line}");
    std::process::exit((failures != 0) as i32)
}
