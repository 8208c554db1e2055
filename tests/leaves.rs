//! Compares crates/leaves/stdout with the Rust: the names with the tables read out of the source text of
//! symbolic-cfi, numbers, rules and lines with Rust's own formatting.
//!
//! Arguments: the stored output, and the files of the Rust source, symbolic-cfi/src/lib.rs and symbolic-common/src/types.rs, where they are at
//! hand. The last line is 'N passed, M failed'.

mod tally;

use std::collections::BTreeSet;
use std::{env, fs};
use tally::Tally;

impl Tally {
    /// The lines that start with `word` are just these, in this order.
    fn lines(&mut self, output: &str, word: &str, expected: &[String]) {
        let found: Vec<&str> = rows(output, word);
        self.check(found.len() == expected.len(), &format!("{} lines '{word}', expected {}", found.len(), expected.len()));
        for (i, e) in expected.iter().enumerate() {
            let f = found.get(i).copied().unwrap_or("");
            self.check(f == e, &format!("'{f}', expected '{e}'"));
        }
    }
}

fn rows<'a>(output: &'a str, word: &str) -> Vec<&'a str> {
    output.lines().filter(|l| l.split(' ').next() == Some(word)).collect()
}

// ---- names

/// The entries of `static NAME: &[&str] = &[..];`.
fn table(source: &str, name: &str) -> Vec<String> {
    let head = format!("static {name}: &[&str] = &[");
    let start = source.find(&head).unwrap_or_else(|| panic!("no table {name}")) + head.len();
    let body = &source[start..start + source[start..].find("];").expect("the table's end")];
    body.split('"').skip(1).step_by(2).map(str::to_string).collect()
}

/// The number of a case of `CpuFamily`.
fn family(types: &str, case: &str) -> u32 {
    let head = format!(" {case} = ");
    let start = types.find(&head).unwrap_or_else(|| panic!("no family {case}")) + head.len();
    types[start..].split(',').next().unwrap().trim().parse().expect("a family's number")
}

/// The arms of the match in `cfi_register_name`: family and table.
fn arms(source: &str, types: &str) -> Vec<(u32, String)> {
    let start = source.find("let opt = match arch {").expect("the match of cfi_register_name");
    let body = &source[start..start + source[start..].find("_ => None").expect("its last arm")];
    let mut out = Vec::new();
    for arm in body.lines().filter(|l| l.contains("=>")) {
        let (cases, result) = arm.split_once("=>").unwrap();
        let table = result.trim().split('.').next().unwrap();
        for case in cases.split('|') {
            out.push((family(types, case.trim().trim_start_matches("CpuFamily::")), table.to_string()));
        }
    }
    out
}

fn names(t: &mut Tally, output: &str, files: &[String]) {
    let [source, types] = files else {
        println!("skipped: the names of the tables: no Rust source");
        return;
    };
    let read = |file| fs::read_to_string(file).expect("the Rust source");
    let (source, types) = (read(source), read(types));
    let mut expected = BTreeSet::new();
    for (family, name) in arms(&source, &types) {
        for (register, entry) in table(&source, &name).iter().enumerate() {
            if !entry.is_empty() {
                expected.insert(format!("cfi {family} {register} {entry}"));
            }
        }
    }
    let found = rows(output, "cfi");
    let ours: BTreeSet<String> = found.iter().map(|l| l.to_string()).collect();
    t.check(found.len() == ours.len(), "a name twice");
    t.check(expected.len() > 600, "few names in the Rust source");
    for line in &expected {
        t.check(ours.contains(line), &format!("missing '{line}'"));
    }
    for line in ours.difference(&expected) {
        t.check(false, &format!("not in the Rust source: '{line}'"));
    }
}

/// Microsoft's order, of the page on x64 exception handling.
const PE: [&str; 16] = [
    "$rax", "$rcx", "$rdx", "$rbx", "$rsp", "$rbp", "$rsi", "$rdi", "$r8", "$r9", "$r10", "$r11", "$r12", "$r13", "$r14", "$r15",
];

fn pe_and_arm64(t: &mut Tally, output: &str) {
    let pe: Vec<String> = PE.iter().enumerate().map(|(i, n)| format!("pe {i} {n}")).collect();
    t.lines(output, "pe", &pe);
    let mut arm64 = Vec::new();
    for (letter, l) in ["x", "d", "q", "q"].iter().enumerate() {
        for register in [0, 9, 30, 255] {
            arm64.push(format!("arm64 {letter} {register} .{l}{register}"));
        }
    }
    arm64.push(format!("arm64 {0} {0} .q{0}", u32::MAX));
    t.lines(output, "arm64", &arm64);
}

// ---- numbers

fn numbers(t: &mut Tally, output: &str) {
    // Each with its neighbours; beside 0 stands the largest.
    let mut middles = vec![0u64];
    middles.extend((0..64).map(|k| 1u64 << k));
    middles.extend((0..20).map(|k| 10u64.pow(k)));
    let all: Vec<u64> = middles.iter().flat_map(|&x| [x.wrapping_sub(1), x, x.wrapping_add(1)]).collect();
    let hex: Vec<String> = all.iter().map(|x| format!("hex {x:x}")).collect();
    let decimal: Vec<String> = all.iter().map(|x| format!("decimal {x}")).collect();
    t.lines(output, "hex", &hex);
    t.lines(output, "decimal", &decimal);

    let signed: [i64; 28] = [
        0, 1, -1, 8, -8, 9, -9, 10, -10, 99, -99, 100, -100, 0xffff, -0x10000, i32::MAX as i64, -(i32::MAX as i64), 1 << 31,
        i32::MIN as i64, i32::MIN as i64 - 1, u32::MAX as i64, -(1 << 32), 10i64.pow(18), -(10i64.pow(18)), 10i64.pow(18) - 1,
        i64::MAX, -i64::MAX, i64::MIN,
    ];
    let signed: Vec<String> = signed.iter().map(|x| format!("signed {x}")).collect();
    t.lines(output, "signed", &signed);

    let measured = |x: u64| format!("measured {}", format!("{x:x}").len());
    t.lines(output, "measured", &[measured(0), measured(u64::MAX)]);
}

// ---- rules and lines

fn rules(t: &mut Tally, output: &str) {
    let mut expected = Vec::new();
    for (name, reg, x) in [
        (".cfa", "$rsp", 48),
        (".ra", ".sp", -8),
        ("$rbx", "$rbp", 0),
        ("$fs.base", "$sp", i64::MAX),
        (".x29", ".d8", i64::MIN),
        (".sp", ".q255", i32::MAX as i64),
    ] {
        expected.push(format!("rule {name}: {reg}"));
        expected.push(format!("rule {name}: {reg} {x} +"));
        expected.push(format!("rule {name}: {reg} {x} + ^"));
        expected.push(format!("rule {name}: .cfa {x} +"));
        expected.push(format!("rule {name}: .cfa {x} + ^"));
        expected.push(format!("rule {name}: .cfa {x} - ^"));
    }
    t.lines(output, "rule", &expected);
}

fn lines(t: &mut Tally, output: &str) {
    let init = |address: u64, size: u64| format!("init STACK CFI INIT {address:x} {size:x}");
    t.lines(output, "init", &[init(0x1000, 0x40), init(0, 0), init(u64::MAX, u64::MAX)]);
    let later = |address: u64| format!("later STACK CFI {address:x}");
    let six = |address: u64| format!("later STACK CFI      {address:x}");
    t.lines(output, "later", &[later(0x1000), six(0x1004), later(u64::MAX), six(0)]);
    let win = |x: u32, program: bool| {
        let f: Vec<u32> = (0..9).map(|i| x.wrapping_add(i)).collect();
        format!(
            "win STACK WIN {:x} {:x} {:x} {:x} {:x} {:x} {:x} {:x} {:x} {} .",
            f[0], f[1], f[2], f[3], f[4], f[5], f[6], f[7], f[8], i32::from(program)
        )
    };
    t.lines(output, "win", &[win(0, false), win(8, true), win(u32::MAX - 7, true)]);
}

fn main() {
    let args: Vec<String> = env::args().collect();
    let output = fs::read_to_string(&args[1]).expect("the stored output");
    let mut t = Tally::default();
    names(&mut t, &output, &args[2..]);
    pe_and_arm64(&mut t, &output);
    numbers(&mut t, &output);
    rules(&mut t, &output);
    lines(&mut t, &output);
    let known = ["cfi", "pe", "arm64", "hex", "decimal", "signed", "measured", "rule", "init", "later", "win"];
    t.check(output.lines().all(|l| known.contains(&l.split(' ').next().unwrap())), "a line of no kind");
    t.end();
}
