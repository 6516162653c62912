//! The inputs of the rows of docs/DIFFERENCES.md, run, and each answer held
//! to what the row says (the file names what is read and not run).
use published::value::Value;
use runner::{explained, in_immediate};
use tables::meaning::{compare, V};
use tables::opcodes::{line, unpack};
use tables::*;

fn show(c: &Result<Compiled, Refused>, top: bool) -> String {
    let c = match c { Err(Refused(n)) => return format!("refused with {n}"), Ok(c) => c };
    let lines: Vec<String> = c.words.iter().map(|w| {
        let (op, v) = unpack(*w, top).unwrap();
        format!("{} (0x{w:x})", line(op, &v))
    }).collect();
    format!("{}, slots {:x?}, register {}, frame {}", lines.join("; "), c.consts, c.reg, c.frame)
}

fn main() {
    runner::quiet();
    let (mut p, mut h) = (published::Oracle::new(), house::Oracle::new());
    let (mut rows, mut bad) = (0, 0);
    // a row's side: what was got, and what the row says
    let mut side = |row: &str, side: &str, got: String, says: &str| {
        rows += 1;
        if got != says { bad += 1 }
        println!("{} {row}, {side}: {got}", if got == says { "ok  " } else { "FAIL" });
        if got != says { println!("     the row says: {says}") }
    };
    let b = Builder::default;

    let mut both = |row: &str, job: &Job, published: &str, house: &str| {
        side(row, "published", show(&p.compile(job), true), published);
        side(row, "house", show(&h.compile(job), false), house);
    };
    let mut copy = b().reg(1).job(2);
    copy.dst = Some(0);
    both("1 packing", &copy, "mov 0, 1 (0x1000000000004), slots [], register 0, frame 2", "mov 0, 1 (0x1000004), slots [], register 0, frame 2");
    both("2 base 0", &b().int(0).job(0), "load_imm40 1, 0 (0x103), slots [], register 1, frame 2", "load_imm40 1, 0 (0x103), slots [], register 1, frame 2");
    for (name, kind, theirs, ours) in [("Nil", NIL, 0x05, 1), ("False", FALSE, 0x15, 5), ("True", TRUE, 0x1D, 9)] {
        let says = |raw: u64| format!("load_imm40 1, {raw} (0x{raw:x}000103), slots [], register 1, frame 2");
        both(&format!("3 raw bits of {name}"), &b().op(kind).job(1), &says(theirs), &says(ours));
    }
    let flonum = b().node(FLOAT, 0x77F0_0000_0000_0000).job(1);
    both("4 Float 2^896", &flonum, "load_imm40 1, 14 (0xe000103), slots [], register 1, frame 2",
         "load_const 1, 0 (0x105), slots [(3, 77f0000000000000)], register 1, frame 2");
    let tenth = "load_const 1, 0 (0x105), slots [(3, 3fb999999999999a)], register 1, frame 2";
    both("4 Float 0.1", &b().float(0.1).job(1), tenth, tenth);
    let none = Job { max_slots: 0, ..flonum };
    both("5 no slots lent", &none, "load_imm40 1, 14 (0xe000103), slots [], register 1, frame 2", "refused with 6");
    // 11: equal constants. Slots for both, for one, for none
    let twice = b().float(0.1).float(0.1).op(ADD).job(1);
    let apart = "load_const 1, 0 (0x105); load_const 2, 1 (0x100000205); add 1, 1, 2 (0x2000001000112), slots [(3, 3fb999999999999a), (3, 3fb999999999999a)], register 1, frame 3";
    let shared = "load_const 1, 0 (0x105); load_const 2, 0 (0x205); add 1, 1, 2 (0x20001000112), slots [(3, 3fb999999999999a)], register 1, frame 3";
    for (slots, theirs, ours) in [(2, apart, shared), (1, "refused with 6", shared), (0, "refused with 6", "refused with 6")] {
        let lent = Job { max_slots: slots, ..twice.clone() };
        both(&format!("11 0.1 + 0.1, {slots} slots"), &lent, theirs, ours);
    }
    // the row explains that answer of the published mode, and no other: another number, another word, 6 where nothing was asked for
    let (right, ours) = (p.compile(&none), h.compile(&none));
    let another = right.clone().map(|c| Compiled { words: vec![c.words[0] ^ 1 << 16], ..c });
    for (what, answer, says) in [("the published answer", &right, "true"), ("5", &Err(Refused(5)), "false"), ("6", &Err(Refused(6)), "false"), ("7", &Err(Refused(7)), "false"), ("another register", &another, "false")] {
        side("5 explained", what, explained(&mut h, &none, answer, &ours, &mut vec![]).to_string(), says);
    }

    // 11, the house alone: what differs in a bit or in the kind is apart, and an immediate takes no slot
    let mut only = |row: &str, tree: &mut Builder, says: &str| side(row, "house", show(&h.compile(&Job { max_slots: 1, ..tree.job(1) }), false), says);
    only("11 0.0 + -0.0, 1 slot", b().float(0.0).float(-0.0).op(ADD), "refused with 6");
    only("11 Int and Float of one pattern, 1 slot", b().int(0x3FF0 << 48).float(1.0).op(ADD), "refused with 6");
    only("11 2^37 - 1 twice, 1 slot", b().int((1 << 37) - 1).int((1 << 37) - 1).op(ADD),
         "load_imm40 1, 549755813884 (0x7ffffffffc000103); load_imm40 2, 549755813884 (0x7ffffffffc000203); add 1, 1, 2 (0x20001000112), slots [], register 1, frame 3");

    // 6 to 8: patch_jump and decoding. A word that decodes is printed by the given display
    let jmp = [published::insns::Insn::jmp(0)];
    let mut patched = |words: &[published::insns::Insn], at, target| format!("{:x?}", p.patch(words, at, target));
    side("6 jmp at 0 to 2^64-1", "published", patched(&jmp, 0, usize::MAX), "Some([fffffffe00000041])");
    side("6 jmp at 0 to 2^31", "published", patched(&jmp, 0, 1 << 31), "Some([7fffffff00000041])");
    side("6 jmp at 0 to 2^31+1", "published", patched(&jmp, 0, (1 << 31) + 1), "None");
    let mut ours = |words: &[u64], at, target| house::words::patch(&mut h, &mut words.to_vec(), at, target).to_string();
    side("6 jmp at 0 to 2^64-1", "house", ours(&[65], 0, u64::MAX), "8");
    side("6 jmp at 0 to 2^31", "house", ours(&[65], 0, 1 << 31), "0");
    side("6 jmp at 0 to 2^31+1", "house", ours(&[65], 0, (1 << 31) + 1), "8");
    let add = [published::insns::Insn::add(1, 2, 3)];
    if cfg!(not(debug_assertions)) { side("7 patch an add", "published", patched(&add, 0, 5), "Some([3000002000112])") }
    side("7 patch an add", "house", ours(&[18], 0, 5), "11");
    side("8 patch where no word is", "published", patched(&[], 0, 5), "None");
    side("8 patch where no word is", "house", ours(&[], 0, 5), "12");
    let stray = 1 << 63 | 0x01000004;
    side("9 mov with bit 63", "given macros, house packing", house::insns::oracle_word(stray).to_string(), "mov r0, r1");
    side("9 mov with bit 63", "house", format!("{:?}", house::words::decode(stray)), "Err(10)");
    side("9 opcode 77", "house", format!("{:?}", house::words::decode(77)), "Err(10)");
    side("9 raw 2", "given constructor", house::insns::Insn::load_imm40(0, 2).to_string(), "load_imm40 r0, 2");
    side("9 raw 2", "house", format!("{:?} {:?}", house::words::construct(3, &[0, 2]), house::words::decode(0x2000003)), "Err(9) Err(10)");

    // 10: a field too small. The given constructors assert, nothing is masked
    let panics = |f: fn() -> published::insns::Insn| std::panic::catch_unwind(f).is_err().to_string();
    side("10 bit_and_mask lo 64 panics", "published", panics(|| published::insns::Insn::bit_and_mask(0, 0, 64, 1)), "true");
    side("10 jeq by 2^23 panics", "published", panics(|| published::insns::Insn::jeq(0, 0, 1 << 23)), "true");
    side("10 load_imm40 2^39 panics", "published", panics(|| published::insns::Insn::load_imm40(0, 1 << 39)), "true");
    side("10 the same", "house", format!("{:?} {:?} {:?}", house::words::construct(16, &[0, 0, 64, 1]),
        house::words::construct(45, &[0, 0, 1 << 23]), house::words::construct(3, &[0, 1 << 39])), "Err(9) Err(9) Err(9)");

    // no row: comparisons of an Int with a Float are exact on both sides. 2^53+1 against 2^53 as a Float, and 2^53 against itself
    let equal = |n: i64| (Value::fixnum(n) == Value::try_flonum(9007199254740992.0).unwrap()).to_string();
    side("exact 2^53+1 == 2^53 as a Float", "published", equal((1 << 53) + 1), "false");
    side("exact 2^53 == 2^53 as a Float", "published", equal(1 << 53), "true");
    let equal = |n: i64| format!("{:?}", compare(EQ, V::Int(n), V::Float(9007199254740992.0)));
    side("exact 2^53+1 == 2^53 as a Float", "house", equal((1 << 53) + 1), "Ok(false)");
    side("exact 2^53 == 2^53 as a Float", "house", equal(1 << 53), "Ok(true)");

    // 4: the edges of what the published Rust puts in an immediate
    for (bits, says) in [(0x77F0_0000_0000_0000u64, true), (0xF7F0_0000_0000_0000, true), (0xB7F0_0000_0000_0000, true), (0x47EF_FFFF_FFFF_FFFF, true),
                         (0x07EF_FFFF_FFFF_FFFF, true), (0x37F0_0000_0000_0000, true), (0x47F0_0000_0000_0000, false), (0, false), (0x3FF0_0000_0000_0000, false)] {
        side("4 in an immediate", &format!("published, {bits:016x}"), in_immediate(bits).to_string(), &says.to_string());
    }
    runner::finish(format!("probes: {rows} sides of rows, {bad} not as docs/DIFFERENCES.md says"), bad);
}
