//! Document 01's sample trees against the house-mode Rust: 1, 2, 3, 5, 6, 7,
//! 8, 9, 11, 12, 13, 14. Samples 4 and 10 are about values: house words are
//! run, and the tree evaluated.
use tables::meaning::{eval, run, V};
use tables::opcodes::{decode, line, pack, OPCODES};
use tables::*;

fn op(name: &str) -> usize { OPCODES.iter().position(|o| o.0 == name).unwrap() }

fn lines(words: &[u64]) -> Vec<String> {
    words.iter().map(|w| { let (o, v) = decode(*w).expect("decodes"); line(o, &v) }).collect()
}

fn main() {
    runner::quiet();
    let (mut ok, mut bad) = (0, 0);
    let mut say = |name: &str, good: bool, got: String| {
        if good { ok += 1 } else { bad += 1 }
        println!("{} {name}: {got}", if good { "ok  " } else { "FAIL" });
    };
    let mut o = house::Oracle::new();
    let mut compile = |j: &Job| o.compile(j);
    let b = Builder::default;

    for (name, no) in [("panic", 0), ("mov", 4), ("add", 18), ("add_imm16", 23), ("if_true", 43), ("jnlt", 51), ("jmp", 65), ("ret_imm40", 76)] {
        say("opcode", op(name) == no, format!("{name} = {}", op(name)));
    }

    let c = compile(&b().reg(0).int(5).op(ADD).job(1)).unwrap();
    say("1", c.words == [5_497_558_139_159] && (c.reg, c.frame) == (1, 2) && c.consts.is_empty(), format!("{:?} reg {} frame {}", c.words, c.reg, c.frame));

    let c = compile(&b().reg(0).int(32_768).op(ADD).job(1)).unwrap();
    say("2", lines(&c.words) == ["load_imm40 1, 131072", "add 1, 0, 1"], format!("{:?} reg {} frame {}", lines(&c.words), c.reg, c.frame));

    let lt = b().reg(0).reg(1).op(LT).int(1).int(2).op(TERNARY).job(2);
    let c = compile(&lt).unwrap();
    say("3", c.words == [0x0000020001000033, 0x04000203, 0x141, 0x08000203] && (c.reg, c.frame) == (2, 3) && c.consts.is_empty(),
        format!("{:x?} reg {} frame {}", c.words, c.reg, c.frame));

    let nan = V::Float(f64::NAN);
    let not_ge = b().reg(0).reg(1).op(GE).op(NOT).int(1).int(2).op(TERNARY).job(2);
    for (job, want) in [(&lt, 2), (&not_ge, 1)] {
        for locals in [[nan, V::Int(0)], [V::Int(0), nan]] {
            let c = compile(job).unwrap();
            let mut regs = [locals[0], locals[1], V::Nil];
            let ran = run(&c.words, &[], &mut regs, 0, 9);
            let value = eval(&job.table, &locals);
            say("4", ran.number == 0 && regs[2] == V::Int(want) && value == Ok(V::Int(want)), format!("run {:?}, evaluated {value:?}", regs[2]));
        }
    }

    let c = compile(&b().int(5).reg(0).op(LT).int(1).int(2).op(TERNARY).job(1)).unwrap();
    say("5", lines(&c.words)[0] == "jngt_imm16 0, 5, 2", lines(&c.words)[0].clone());

    let c = compile(&b().reg(0).int(0xFF0).op(BIT_AND).job(1)).unwrap();
    say("6 mask", lines(&c.words) == ["bit_and_mask 1, 0, 4, 8"], format!("{:?}", lines(&c.words)));
    let c = compile(&b().reg(0).int(5).op(BIT_AND).job(1)).unwrap();
    say("6 no mask", lines(&c.words) == ["load_imm40 1, 20", "bit_and 1, 0, 1"], format!("{:?}", lines(&c.words)));

    let c = compile(&b().reg(0).int((1 << 61) - 1).op(BIT_AND).job(1)).unwrap();
    say("7 folds", lines(&c.words) == ["bit_and_mask 1, 0, 0, 61"], format!("{:?}", lines(&c.words)));
    let c = compile(&b().reg(0).int(1 << 61).op(BIT_AND).job(1)).unwrap();
    say("7 not", lines(&c.words) == ["load_const 1, 0", "bit_and 1, 0, 1"] && c.consts == [(2, 1 << 61)], format!("{:?} {:?}", lines(&c.words), c.consts));

    let c = compile(&b().int((1 << 37) - 1).job(1)).unwrap();
    say("8 immediate", lines(&c.words) == ["load_imm40 1, 549755813884"] && c.consts.is_empty(), format!("{:?}", lines(&c.words)));
    let c = compile(&b().int(1 << 37).job(1)).unwrap();
    say("8 slot", lines(&c.words) == ["load_const 1, 0"] && c.consts == [(2, 1 << 37)], format!("{:?} {:?}", lines(&c.words), c.consts));
    let c = compile(&b().int(-(1 << 37)).job(1)).unwrap();
    say("8 least", lines(&c.words) == ["load_imm40 1, -549755813888"], format!("{:?}", lines(&c.words)));
    let c = compile(&b().int(-(1 << 37) - 1).job(1)).unwrap();
    say("8 below", lines(&c.words) == ["load_const 1, 0"], format!("{:?}", lines(&c.words)));

    let minus = eval(&b().int(i64::MIN).op(MINUS).words, &[]);
    say("10", minus == Err(21), format!("{minus:?}"));

    let c = compile(&b().op(NIL).job(65_534)).unwrap();
    say("11", (c.reg, c.frame) == (65_534, 65_535), format!("reg {} frame {}", c.reg, c.frame));
    let c = compile(&b().op(NIL).job(65_535));
    say("11 refused", c == Err(Refused(5)), format!("{c:?}"));

    let chain = |n: usize| { let mut t = b(); t.reg(0); for _ in 1..n { t.op(MINUS); } t.job(1) };
    let c = compile(&chain(200));
    say("12 depth 200", c.is_ok(), format!("{} words", c.unwrap().words.len()));
    let c = compile(&chain(201));
    say("12 depth 201", c == Err(Refused(3)), format!("{c:?}"));
    let wide = |nodes: usize| Builder { words: gen::tree(&mut gen::Rng(1), gen::Shape { nodes, depth: MAX_DEPTH, base: 2, typed: 0 }) }.job(2);
    let c = compile(&wide(65_536));
    say("12 65,536 nodes", c.is_ok(), format!("{} words", c.unwrap().words.len()));
    let c = compile(&wide(65_537));
    say("12 65,537 nodes", c == Err(Refused(1)), format!("{c:?}"));

    let c = compile(&b().reg(0).int(63).op(LSHIFT).job(1)).unwrap();
    say("13 folds", lines(&c.words) == ["lshift_imm 1, 0, 63"], format!("{:?}", lines(&c.words)));
    let c = compile(&b().reg(0).int(64).op(LSHIFT).job(1)).unwrap();
    let ran = run(&c.words, &[], &mut [V::Int(1), V::Nil], 0, 9);
    say("13 general", lines(&c.words) == ["load_imm40 1, 256", "lshift 1, 0, 1"] && ran.number == 24, format!("{:?} {ran:?}", lines(&c.words)));

    let c = compile(&b().reg(0).job(1)).unwrap();
    let ran = run(&c.words, &[], &mut [V::Nil], 0, 0);
    say("14", c.words.is_empty() && (c.reg, c.frame) == (0, 1) && (ran.number, ran.steps) == (0, 0), format!("{} words reg {} frame {} {ran:?}", c.words.len(), c.reg, c.frame));

    // 9: the given patch_jump on a 24-bit branch in a store that long
    let jeq = house::insns::Insn::jeq(0, 1, 0);
    for (at, target, fits) in [(0usize, 8_388_608usize, true), (0, 8_388_609, false), (8_388_607, 0, true), (8_388_608, 0, false)] {
        let got = o.patch(&vec![jeq; at + 1], at, target).map(|w| w[at]);
        let want = pack(op("jeq"), &[0, 1, target as i64 - at as i64 - 1], false);
        say("9", got == want && got.is_some() == fits, format!("from {at} to {target}: {got:x?}"));
    }
    runner::finish(format!("samples: {ok} ok, {bad} failed"), bad);
}
