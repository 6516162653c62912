//! Writes the house insns.rs: the given one with document 01's packing. In
//! two places the last field stands at the top of the word; here it follows
//! the field before it. The file's first line, an inner attribute, cannot be
//! include!d and moves to the module.
fn main()
{
    let given = std::fs::read_to_string("../given/insns.rs").unwrap();
    let (attribute, top) = ("#![allow(non_camel_case_types)]\n", "64 - opnd_width!($kind)");
    assert!(given.starts_with(attribute) && given.matches(top).count() == 2, "insns.rs is not the one given");
    let house = given[attribute.len()..].replace(top, "$pos");
    std::fs::write(format!("{}/insns.rs", std::env::var("OUT_DIR").unwrap()), house).unwrap();
    println!("cargo:rerun-if-changed=../given/insns.rs");
}
