//! Every name and number of the crate, and every width of an operand, is the header's; and the widths are the library's.
use vosemaqe::{encode, Error, Instruction, Kind, Opcode, VERSION};

const HEADER: &str = include_str!("../../../include/vosemaqe.h");

/// The entries `VOSEMAQE_<prefix>NAME = NUMBER, /* WHAT */` of an enum of the header: name without underscores, number, what.
fn named(of: &str, prefix: &str) -> Vec<(String, u64, Vec<&'static str>)> {
    let body = HEADER
        .split_once(&format!("enum {of} {{"))
        .expect("the enum")
        .1;
    let body = body.split_once("};").expect("its end").0;
    let entries = body.split("VOSEMAQE_").skip(1);
    let read = |text: &'static str| {
        let (name, rest) = text.strip_prefix(prefix)?.split_once(" = ")?;
        let digits = rest.split(|c: char| !c.is_ascii_digit()).next()?;
        let what = rest
            .split_once("/*")
            .and_then(|(_, what)| what.split_once("*/"));
        let what = what.map_or(vec![], |(what, _)| what.split_whitespace().collect());
        Some((name.replace('_', ""), digits.parse().ok()?, what))
    };
    entries.filter_map(read).collect()
}

fn same(name: &str, ours: impl std::fmt::Debug) {
    assert_eq!(name, format!("{ours:?}").to_uppercase());
}

#[test]
fn version() {
    let line = HEADER
        .lines()
        .find_map(|l| l.strip_prefix("#define VOSEMAQE_VERSION "));
    assert_eq!(line, Some(VERSION.to_string().as_str()));
    let [major, minor, patch] = [VERSION / 10_000, VERSION / 100 % 100, VERSION % 100];
    assert_eq!(
        env!("CARGO_PKG_VERSION"),
        format!("{major}.{minor}.{patch}")
    );
}

#[test]
fn kinds() {
    use Kind::*;
    let kinds = [
        Nil, True, False, Int, Float, Ref, Minus, Not, BitAnd, BitOr, BitXor, LShift, RShift, Add,
        Sub, Mul, Div, Mod, Eq, Ne, Lt, Le, Gt, Ge, And, Or, Ternary,
    ];
    let header = named("vosemaqe_node", "NODE_");
    assert_eq!(header.len(), kinds.len());
    for ((name, number, _), kind) in header.iter().zip(kinds) {
        same(name, kind);
        assert_eq!(*number, kind.into());
    }
}

#[test]
fn numbers() {
    let all: Vec<_> = (0..=255).filter_map(|n| Error::try_from(n).ok()).collect();
    let header = named("vosemaqe_number", "").split_off(1); // but for 0
    assert_eq!(header.len(), all.len());
    for ((name, number, _), error) in header.iter().zip(all) {
        same(name, error);
        assert_eq!(*number, error.number() as u64);
    }
}

/// The least and the greatest number of a field.
fn range(field: &str) -> (i64, i64) {
    let width = |digits: &str| digits.parse::<u32>().expect("a width");
    match field.split_at(1) {
        ("r", "") => (0, (1 << 16) - 1),
        ("s", "") => (0, (1 << 32) - 1),
        ("i", "") => (-1 << 15, (1 << 15) - 1),
        // the raw bits of the least and the greatest Int
        ("v", "") => (-1 << 39, (1 << 39) - 4),
        ("n", w) => (0, (1 << width(w)) - 1),
        ("j", w) => (-1 << (width(w) - 1), (1 << (width(w) - 1)) - 1),
        _ => panic!("{field}"),
    }
}

#[test]
fn opcodes() {
    let header = named("vosemaqe_opcode", "OP_");
    assert_eq!(header.len(), Opcode::ALL.len());
    for ((name, number, what), opcode) in header.iter().zip(Opcode::ALL.iter().copied()) {
        let fields: Vec<_> = what.iter().copied().filter(|f| *f != "*").collect();
        same(name, opcode);
        assert_eq!(name.to_lowercase(), opcode.name().replace('_', ""));
        assert_eq!(
            (Opcode::try_from(*number), fields.join(" ")),
            (Ok(opcode), opcode.fields().to_string())
        );
        for i in 0..5 {
            let with = |x| {
                let mut operands = [0; 5];
                operands[i] = x;
                encode(Instruction { opcode, operands })
            };
            let (least, most, step) = match fields.get(i) {
                Some(&field) => (
                    range(field).0,
                    range(field).1,
                    if field == "v" { 4 } else { 1 },
                ),
                None => (0, 0, 1),
            };
            assert!(with(least).is_ok() && with(most).is_ok(), "{name} {i}");
            assert_eq!(with(least - step), Err(Error::NoFit), "{name} {i}");
            assert_eq!(with(most + step), Err(Error::NoFit), "{name} {i}");
        }
    }
    assert_eq!(Opcode::try_from(77), Err(Error::NoFit));
}
