//! Feed energy back when the DC-link voltage is above its limit and braking is requested: evaluated and run, by the installed package alone.
use vosemaqe::expr::local;
use vosemaqe::{compile, evaluate, pairs, run, version, Error, Value, VERSION};

fn main() -> Result<(), Error> {
    let (voltage, limit, braking) = (local(0), local(1), local(2));
    let mut words = [0; 20];
    let table = voltage.gt(limit).and(braking).table(&mut words)?;
    let (mut code, mut slot_kinds, mut slot_payloads) = ([0; 20], [0; 5], [0; 5]);
    let made = compile(table, 0, 3, None, &mut code, &mut slot_kinds, &mut slot_payloads)?;
    let (mut kinds, mut payloads) = pairs([812.5.into(), 750.0.into(), true.into(), Value::Nil]);
    let value = evaluate(table, 0, 3, &kinds, &payloads)?;
    let code = &code[..made.words];
    let ran = run(code, 0, &mut kinds, &mut payloads, &slot_kinds, &slot_payloads, 5)?;
    assert_eq!(Value::try_from((kinds[made.register], payloads[made.register]))?, value);
    assert_eq!(version(), VERSION);
    let answer = if value == Value::Bool(true) { "feed back" } else { "wait" };
    println!("version {}, {} words, {} steps: {answer}", version(), made.words, ran.steps);
    Ok(())
}
