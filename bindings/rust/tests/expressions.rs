//! The builder and the operators of `expr`: each writes the nodes of its name, in order, and running agrees with evaluating.
use vosemaqe::expr::*;
use vosemaqe::*;

/// A table's value on locals, evaluated, and run from its words.
fn value(table: &[u64], locals: &[Value]) -> Result<Value, Error> {
    let mut code = [0; 64];
    let (mut slot_kinds, mut slot_payloads) = ([0; 16], [0; 16]);
    let made = compile(
        table,
        0,
        locals.len() as u64,
        None,
        &mut code,
        &mut slot_kinds,
        &mut slot_payloads,
    )?;
    let mut registers = [Value::Nil; 16];
    registers[..locals.len()].copy_from_slice(locals);
    let (mut kinds, mut payloads) = pairs(registers);
    let evaluated = evaluate(table, 0, locals.len() as u64, &kinds, &payloads);
    let ran = run(
        &code[..made.words],
        0,
        &mut kinds,
        &mut payloads,
        &slot_kinds,
        &slot_payloads,
        64,
    );
    match ran {
        Ok(_) => assert_eq!(
            Ok(Value::try_from((
                kinds[made.register],
                payloads[made.register]
            ))?),
            evaluated
        ),
        Err(stopped) => assert_eq!(Err(stopped.into()), evaluated),
    }
    evaluated
}

#[test]
fn operators() {
    let (a, b) = (local(0), local(1));
    let on = [Value::Int(7), Value::Int(3)];
    let mut words = [0; 40];
    macro_rules! gives {
        ($e:expr, $v:expr) => {
            assert_eq!(value($e.table(&mut words).unwrap(), &on), $v)
        };
    }
    gives!(a + b, Ok(10.into()));
    gives!(a - b, Ok(4.into()));
    gives!(a * b, Ok(21.into()));
    gives!(a / int(2), Ok(3.5.into()));
    gives!(a % b, Ok(1.into()));
    gives!(a & b, Ok(3.into()));
    gives!(a | int(8), Ok(15.into()));
    gives!(a ^ b, Ok(4.into()));
    gives!(a << b, Ok(56.into()));
    gives!(-a >> int(1), Ok((-4).into()));
    gives!(a.eq(b), Ok(false.into()));
    gives!(a.ne(b), Ok(true.into()));
    gives!(a.lt(b), Ok(false.into()));
    gives!(a.le(a), Ok(true.into()));
    gives!(a.gt(b), Ok(true.into()));
    gives!(a.ge(b), Ok(true.into()));
    gives!(!a.lt(b), Ok(true.into()));
    gives!(a.lt(b).and(boolean(true)), Ok(false.into()));
    gives!(a.lt(b).or(boolean(true)), Ok(true.into()));
    gives!(a.lt(b).then_else(nil(), float(1.5) * a), Ok(10.5.into()));
    gives!(a % int(0), Err(Error::ModByZero));
}

#[test]
fn a_builder_writes_what_an_expression_does() {
    let (mut one, mut two) = ([0; 24], [9; 26]);
    let one = local(0)
        .lt(local(1))
        .then_else(int(1), float(2.5))
        .table(&mut one);
    let mut t = Table::new(&mut two);
    t.local(0)
        .local(1)
        .op(Kind::Lt)
        .int(1)
        .float(2.5)
        .op(Kind::Ternary);
    assert_eq!(one, t.finish());
    assert_eq!(
        local(0).lt(local(1)).table(&mut [0; 11]),
        Err(Error::NoRoom)
    );
}

#[test]
fn an_unfinished_table_is_refused() {
    let mut words = [0; 8];
    let mut t = Table::new(&mut words);
    t.local(0).op(Kind::Add);
    assert_eq!(check(t.finish().unwrap(), 0, 1, None), Err(Error::BadNode));
}
