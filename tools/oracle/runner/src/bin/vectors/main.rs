//! The vectors that the replay programs are run on: for each program its
//! standard input and the standard output that the oracle expects.
//!     vectors write FOLDER    FOLDER/NAME_replay/{stdin,stdout}, made anew
//!     vectors check FOLDER    compares those that stand there
//! A file is a run of 64-bit numbers, least byte first. Every stdin begins
//! with its number of records; the answers follow one another in stdout.
mod codegen;
mod eval;
mod machine;
mod value;
mod words;

use std::collections::BTreeMap;
use std::path::Path;

/// The two files of one program, and what the answers met.
#[derive(Default)]
pub struct Pair { records: u64, stdin: Vec<u64>, stdout: Vec<u64>, met: BTreeMap<String, usize> }

impl Pair {
    pub fn record(&mut self, numbers: &[u64]) { self.records += 1; self.stdin.extend(numbers) }
    pub fn more(&mut self, numbers: &[u64]) { self.stdin.extend(numbers) }
    pub fn answer(&mut self, numbers: &[u64]) { self.stdout.extend(numbers) }
    pub fn meet(&mut self, what: String) { *self.met.entry(what).or_default() += 1 }

    /// The vectors show nothing about what they do not meet.
    pub fn must_meet(&self, what: &str) { assert!(self.met.contains_key(what), "no record meets {what}: {:?}", self.met) }

    fn files(&self) -> [(&str, Vec<u8>); 2] {
        let bytes = |v: &[u64]| v.iter().flat_map(|n| n.to_le_bytes()).collect::<Vec<u8>>();
        [("stdin", bytes(&[&[self.records], &self.stdin[..]].concat())), ("stdout", bytes(&self.stdout))]
    }
}

fn main() {
    let args: Vec<String> = std::env::args().skip(1).collect();
    let [mode, folder] = &args[..] else { panic!("vectors write|check FOLDER") };
    runner::quiet();
    let all: [(&str, fn() -> Pair); 5] =
        [("words", words::make), ("value", value::make), ("eval", eval::make), ("machine", machine::make), ("codegen", codegen::make)];
    let (mut stand, mut differ) = (0, 0);
    for (name, make) in &all {
        let at = Path::new(folder).join(format!("{name}_replay"));
        if !at.is_dir() { println!("{name}_replay: no such folder"); continue }
        stand += 1;
        let pair = make();
        let mut sizes = vec![];
        for (file, bytes) in pair.files() {
            sizes.push(bytes.len());
            match &mode[..] {
                "write" => std::fs::write(at.join(file), bytes).unwrap(),
                "check" if std::fs::read(at.join(file)).is_ok_and(|old| old == bytes) => {}
                "check" => { differ += 1; println!("FAIL {name}_replay/{file} is not what the oracle gives") }
                _ => panic!("vectors write|check FOLDER"),
            }
        }
        println!("{name}_replay: {} records, {} and {} bytes, met {:?}", pair.records, sizes[0], sizes[1], pair.met);
    }
    runner::finish(format!("vectors {mode}: {stand} of {} programs stand, {differ} files differ", all.len()), differ);
}
