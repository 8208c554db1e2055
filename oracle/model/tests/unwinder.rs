//! The second program for x64 chains: lines worked out by hand, and the model's on random chains.

use model::book::bodies;
use model::gen;
use model::order::contradictions;
use model::rng::Rng;
use model::unwinder::{line, turned};
use model::{x64, Judged, Tally, X64};

const RBX: u32 = 3;
const RBP: u32 = 5;
const RSI: u32 = 6;
const RDI: u32 = 7;
const RA: &str = ".ra: .cfa 8 - ^";

/// An info as stored, the prologue's last operation first.
struct Info(u32, u32, Vec<[u32; 3]>);

fn plain(operations: &[[u32; 3]]) -> Info {
    framed(0, 0, operations)
}

fn framed(register: u32, offset: u32, operations: &[[u32; 3]]) -> Info {
    Info(register, offset, operations.to_vec())
}

fn push(register: u32) -> [u32; 3] {
    [1, register, 0]
}

fn allocate(size: u32) -> [u32; 3] {
    [2, 0, size]
}

fn save(register: u32, value: u32) -> [u32; 3] {
    [3, register, value]
}

fn save_by_frame(register: u32, value: u32) -> [u32; 3] {
    [4, register, value]
}

const SET: [u32; 3] = [5, 0, 0];

/// The function's own info first, then its parent, and so on.
fn body(infos: &[Info]) -> Vec<u32> {
    let mut body = vec![0x1000, 0x1040, 0x5000, infos.len() as u32];
    for Info(register, offset, operations) in infos {
        body.extend([*register, *offset, operations.len() as u32]);
        body.extend(operations.iter().flatten());
    }
    body
}

fn model_line(body: &[u32]) -> String {
    match x64::entry(body, 32, &mut Tally::default()) {
        Judged::Text(text) => text,
        _ => panic!("not written"),
    }
}

/// These rules are the second program's and the model's.
fn writes(infos: &[Info], rules: &str) {
    let body = body(infos);
    let due = format!("STACK CFI INIT 1000 40 {rules}\n");
    assert_eq!((line(&body), model_line(&body)), (due.clone(), due));
}

#[test]
fn pushes() {
    let rules = format!(".cfa: $rsp 24 + $rdi: .cfa 16 - ^ $rbx: .cfa 24 - ^ {RA}");
    writes(&[plain(&[push(RBX)]), plain(&[push(RDI)])], &rules);
    writes(&[plain(&[push(RBX), push(RDI)])], &rules);
    writes(&[plain(&[]), plain(&[push(RBX)]), plain(&[]), plain(&[push(RDI)]), plain(&[])], &rules);
}

#[test]
fn saves_in_the_frame_of_the_parent() {
    let parent = [allocate(32), push(RDI)];
    let rules = format!(".cfa: $rsp 48 + $rdi: .cfa 16 - ^ $rbx: .cfa 32 - ^ {RA}");
    writes(&[plain(&[save(RBX, 16)]), plain(&parent)], &rules);
    // Two saves that lie above the parent's frame, in the caller's.
    let rules = format!(".cfa: $rsp 48 + $rdi: .cfa 16 - ^ $rbx: .cfa 0 - ^ $rsi: .cfa -8 - ^ {RA}");
    writes(&[plain(&[save(RSI, 56), save(RBX, 48)]), plain(&parent)], &rules);
    // The part allocates more, and saves in that.
    let rules = format!(".cfa: $rsp 64 + $rdi: .cfa 16 - ^ $rbx: .cfa 56 - ^ {RA}");
    writes(&[plain(&[save(RBX, 8), allocate(16)]), plain(&parent)], &rules);
}

#[test]
fn frame_registers() {
    // push rbp; sub rsp, 64; lea rbp, [rsp + 32], and a part that saves 48 above the stack pointer there, then allocates.
    let parent = || framed(RBP, 32, &[SET, allocate(64), push(RBP)]);
    let rules = format!(".cfa: $rbp 48 + $rbp: .cfa 16 - ^ $rbx: $rbp 16 + ^ {RA}");
    writes(&[framed(RBP, 32, &[save_by_frame(RBX, 48)]), parent()], &rules);
    writes(&[framed(RBP, 32, &[allocate(128), save_by_frame(RBX, 48)]), parent()], &rules);
    // The part sets it: the parent's 32 bytes lie between it and the return address.
    let rules = format!(".cfa: $rbp 48 + $rsi: .cfa 16 - ^ $rbp: .cfa 48 - ^ {RA}");
    writes(&[framed(RBP, 0, &[SET, push(RBP)]), plain(&[allocate(24), push(RSI)])], &rules);
    // Each info has its own frame register and offset.
    let rules = format!(".cfa: $rbp 0 + $rsi: $rdi -8 + ^ {RA}");
    writes(&[framed(RBP, 48, &[SET, allocate(8)]), framed(RDI, 16, &[save_by_frame(RSI, 8), allocate(32)])], &rules);
}

#[test]
fn machine_frames() {
    let part = [push(RBX)];
    for (error_code, cfa) in [(0, 56), (1, 64)] {
        let rules = format!(".cfa: $rsp {cfa} + $rsp: .cfa 24 - ^ .ra: .cfa 48 - ^ $rbx: .cfa {cfa} - ^");
        writes(&[plain(&part), plain(&[[6, 0, error_code]])], &rules);
    }
    let rules = ".cfa: $rsp 56 + $rbx: .cfa 16 - ^ $rsp: .cfa 32 - ^ .ra: .cfa 56 - ^";
    writes(&[plain(&[[6, 0, 0]]), plain(&part)], rules);
}

#[test]
fn the_other_way_round() {
    let chain = body(&[plain(&[push(RBX)]), framed(RBP, 16, &[]), plain(&[allocate(8), push(RDI)])]);
    let other = body(&[plain(&[allocate(8), push(RDI)]), framed(RBP, 16, &[]), plain(&[push(RBX)])]);
    assert_eq!(turned(&chain), other);
    let due = format!("STACK CFI INIT 1000 40 .cfa: $rsp 32 + $rbx: .cfa 16 - ^ $rdi: .cfa 24 - ^ {RA}\n");
    assert_eq!(line(&other), due);
}

/// What a line for the chain contradicts, once a piece of it is another one.
fn contradicted(infos: &[Info], piece: &str, other: &str) -> Vec<String> {
    let body = body(infos);
    let (first_to_last, due) = (line(&turned(&body)), line(&body));
    assert!(first_to_last != due && contradictions(&body, &first_to_last, &due).is_empty());
    assert!(first_to_last.contains(piece), "{first_to_last}");
    let found = contradictions(&body, &first_to_last.replace(piece, other), &due);
    found.iter().map(|fault| fault.split(':').next().unwrap_or_default().to_string()).collect()
}

#[test]
fn what_the_order_leaves_alone() {
    let pushes = [plain(&[push(RBX)]), plain(&[allocate(8), push(RDI)])];
    assert_eq!(contradicted(&pushes, "1000 40", "1000 41"), ["begin and size"]);
    assert_eq!(contradicted(&pushes, "$rsp 32", "$rsp 40"), ["the total"]);
    assert_eq!(contradicted(&pushes, "$rsp 32", "$rbp 32"), ["the register of the CFA", "the total"]);
    assert_eq!(contradicted(&pushes, "$rbx:", "$rdi:"), ["the names of the rules"]);
    assert_eq!(contradicted(&pushes, " .ra: .cfa 8 - ^", ""), ["the names of the rules"]);
    assert_eq!(contradicted(&pushes, ".cfa 16 - ^", ".cfa 80 - ^"), [""; 0]);
    let by_frame = [framed(RBP, 16, &[save_by_frame(RBX, 48), push(RSI)]), framed(RBP, 0, &[SET, allocate(64)])];
    assert_eq!(contradicted(&by_frame, "$rbp 80 +", "$rbp 88 +"), [""; 0]);
    assert_eq!(contradicted(&by_frame, "$rbp 80 +", "$rsp 80 +"), ["the register of the CFA"]);
    assert_eq!(contradicted(&by_frame, "$rbp 32 + ^", "$rbp 40 + ^"), ["the rules from a frame register"]);
}

#[test]
fn random_chains() {
    let mut rng = Rng::new(11);
    let mut written = 0;
    for _ in 0..2000 {
        let book = gen::chained_book(&mut rng);
        for body in bodies(&book).unwrap_or_default() {
            if let Judged::Text(text) = x64::entry(body, 32, &mut Tally::default()) {
                assert_eq!(line(body), text, "{body:?}");
                written += 1;
            }
        }
        assert_eq!(book[0], X64);
    }
    assert!(written > 2000, "{written} bodies were written");
}
