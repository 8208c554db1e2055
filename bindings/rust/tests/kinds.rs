//! Books of every kind, with their lines.

mod common;

use common::{first, function, info, x64, FIRST_LINE};
use stacklines::book::arm64::{Arm64, Operation as Code, Slot};
use stacklines::book::dwarf::{Cfa, Dwarf, Family, Row, Rule};
use stacklines::book::pdb::{FrameType, Pdb, Range};
use stacklines::book::x64::{Info, Operation, Register};
use stacklines::book::{Book, Kind};
use stacklines::{translate, NO_LIMIT};

/// The text of a book, whose values also come back from its words.
fn text(book: Book) -> String {
    let words = book.words().unwrap();
    assert_eq!(Kind::from_number(words[0]), Some(book.kind()));
    assert_eq!(Book::from_words(&words).unwrap(), book);
    translate(&words, NO_LIMIT).unwrap().to_string()
}

fn rules_of(operations: Vec<Operation>) -> String {
    let text = text(Book::X64(vec![function(vec![info(operations)])]));
    text.strip_prefix("STACK CFI INIT 1000 40 ").unwrap().trim_end().to_string()
}

#[test]
fn x64_first_specimen() {
    assert_eq!(x64(vec![first()]), [1, 1, 4, 13, 4096, 4160, 20480, 1, 0, 0, 2, 2, 0, 32, 1, 3, 0]);
    assert_eq!(text(Book::X64(vec![first()])), FIRST_LINE);
    let twice = vec![Operation::Allocate(16), Operation::Allocate(16), Operation::Push(Register::Rbx)];
    assert_eq!(text(Book::X64(vec![function(vec![info(twice)])])), FIRST_LINE);
}

#[test]
fn x64_machine_frame() {
    for (error_code, cfa) in [(false, 48), (true, 56)] {
        let rules = rules_of(vec![Operation::MachineFrame { error_code }]);
        assert_eq!(rules, format!(".cfa: $rsp {cfa} + $rsp: .cfa 24 - ^ .ra: .cfa 48 - ^"));
    }
}

#[test]
fn x64_frame_register_and_saves() {
    let operations = vec![
        Operation::SaveAtFrame { register: Register::Rsi, offset: 24 },
        Operation::SetFrame,
        Operation::Allocate(32),
        Operation::Push(Register::Rbp),
    ];
    let framed = Info { frame_register: Register::Rbp, frame_offset: 16, operations };
    let due = ".cfa: $rbp 32 + $rbp: .cfa 16 - ^ $rsi: $rbp 8 + ^ .ra: .cfa 8 - ^\n";
    assert_eq!(text(Book::X64(vec![function(vec![framed])])), format!("STACK CFI INIT 1000 40 {due}"));
    let save = Operation::SaveAtRsp { register: Register::Rbx, offset: 16 };
    assert_eq!(rules_of(vec![save, Operation::Other]), ".cfa: $rsp 8 + $rbx: .cfa -8 - ^ .ra: .cfa 8 - ^");
}

/// The last info, the outermost parent's, is run first, and each uses its own frame register.
#[test]
fn x64_chain() {
    let push = |register| info(vec![Operation::Push(register)]);
    let chain = vec![push(Register::Rbx), push(Register::Rdi), push(Register::Rsi)];
    let due = ".cfa: $rsp 32 + $rsi: .cfa 16 - ^ $rdi: .cfa 24 - ^ $rbx: .cfa 32 - ^ .ra: .cfa 8 - ^\n";
    assert_eq!(text(Book::X64(vec![function(chain)])), format!("STACK CFI INIT 1000 40 {due}"));
    let save = Operation::SaveAtFrame { register: Register::Rsi, offset: 24 };
    let operations = vec![save, Operation::Push(Register::Rbx)];
    let part = Info { frame_register: Register::R12, frame_offset: 32, operations };
    let operations = vec![Operation::SetFrame, Operation::Allocate(32), Operation::Push(Register::Rbp)];
    let parent = Info { frame_register: Register::Rbp, frame_offset: 16, operations };
    let due = ".cfa: $rbp 32 + $rbp: .cfa 16 - ^ $rbx: .cfa 56 - ^ $rsi: $r12 -8 + ^ .ra: .cfa 8 - ^\n";
    assert_eq!(text(Book::X64(vec![function(vec![part, parent])])), format!("STACK CFI INIT 1000 40 {due}"));
}

#[test]
fn x64_undecodable_is_skipped() {
    let entry = function(vec![info(vec![Operation::Undecodable])]);
    assert_eq!(text(Book::X64(vec![entry, first()])), FIRST_LINE);
}

fn arm64(operations: Vec<Code>) -> String {
    text(Book::Arm64(vec![Arm64 { address: 0x1000, size: 64, operations }]))
}

#[test]
fn arm64_specimens() {
    assert_eq!(arm64(vec![Code::Other]), "STACK CFI INIT 1000 40 .cfa: .sp 0 + .ra: .x30\n");
    let next = " .x1: .cfa 8 + ^ .x2: .cfa 16 + ^ .cfa: .sp .ra: .x30\n";
    assert_eq!(arm64(vec![Code::SaveNext]), format!("STACK CFI INIT 1000 40{next}"));
    let pair = " .cfa: .sp 16 + .x29: .cfa -16 + ^ .x30: .cfa -8 + ^ .ra: .cfa -8 + ^\n";
    assert_eq!(arm64(vec![Code::PairPre(Slot::x(29, 16))]), format!("STACK CFI INIT 1000 40{pair}"));
}

#[test]
fn arm64_operations() {
    let codes = vec![
        Code::LrPair { register: 19, offset: 16 },
        Code::Save(Slot::q(8, 64)),
        Code::Pair(Slot::d(8, 32)),
        Code::SavePre(Slot::x(21, 96)),
        Code::End,
        Code::Undecodable,
        Code::Allocate(1),
    ];
    let due = "STACK CFI INIT 1000 40 .cfa: .sp 96 + .x21: .cfa -96 + ^ .ra: .x30\n\
               STACK CFI      1004 .d8: .cfa -64 + ^ .d9: .cfa -56 + ^\n\
               STACK CFI      1008 .q8: .cfa -32 + ^\n\
               STACK CFI      100c .x19: .cfa -80 + ^ .x30: .cfa -72 + ^ .ra: .cfa -72 + ^\n";
    assert_eq!(arm64(codes), due);
    assert_eq!(arm64(vec![Code::Undecodable]), "");
}

#[test]
fn dwarf_rows() {
    let register = |register, offset| Cfa::RegisterAndOffset { register, offset };
    let row = |start, end, cfa, rules| Row { start, end, cfa, rules };
    let rows = vec![
        row(0x40_1000, 0x40_1001, register(7, 8), vec![(16, Rule::Offset(-8))]),
        row(0x40_1001, 0x40_1004, register(7, 16), vec![(6, Rule::Offset(-16)), (16, Rule::Offset(-8))]),
        row(0x40_1004, 0x40_1020, register(6, 16), vec![(6, Rule::ValueOffset(i64::MIN)), (3, Rule::Register(12))]),
        row(0x40_1020, 0x40_1021, Cfa::Expression, vec![(6, Rule::Same), (3, Rule::Other)]),
    ];
    let entry =
        Dwarf { family: Family::Amd64, initial_address: 0x40_1000, load_address: 0x40_0000, return_register: 16, rows };
    let due = "STACK CFI INIT 1000 21 .cfa: $rsp 8 + .ra: .cfa -8 + ^\n\
               STACK CFI 1001 .cfa: $rsp 16 + $rbp: .cfa -16 + ^\n\
               STACK CFI 1004 .cfa: $rbp 16 + $rbp: .cfa -9223372036854775808 + $rbx: $r12\n\
               STACK CFI 1020 $rbp: $rbp\n";
    assert_eq!(text(Book::Dwarf(vec![entry])), due);
}

fn frame() -> Pdb {
    Pdb {
        frame_type: FrameType::FrameData,
        code_start: 0x1000,
        code_size: 0x40,
        prolog_size: 6,
        params_size: 8,
        saved_registers_size: 4,
        locals_size: 0x10,
        max_stack_size: Some(0x20),
        string_table: true,
        program: Some(" $T0 $ebp = $eip $T0 4 + ^ = ".to_string()),
        prolog_ranges: vec![Range { start: 0x1000, end: 0x1006 }],
        code_ranges: vec![Range { start: 0x1006, end: 0x1040 }],
        ..Pdb::default()
    }
}

#[test]
fn pdb_frames() {
    let due = "STACK WIN 4 1000 40 6 0 8 4 10 20 1 $T0 $ebp = $eip $T0 4 + ^ =\n";
    assert_eq!(text(Book::Pdb(vec![frame()])), due);
    let apart = Pdb { code_ranges: vec![Range { start: 0x2006, end: 0x2040 }], ..frame() };
    let without = Pdb { program: None, uses_base_pointer: true, max_stack_size: None, ..apart.clone() };
    let due = "STACK WIN 4 1000 6 6 0 8 4 10 0 0 1\nSTACK WIN 4 2006 3a 0 0 8 4 10 0 0 1\n";
    assert_eq!(text(Book::Pdb(vec![without, apart.clone()])), due);
    let no_table = Pdb { string_table: false, program: Some(String::new()), prolog_ranges: vec![], ..apart };
    assert_eq!(text(Book::Pdb(vec![no_table])), "STACK WIN 4 2006 3a 0 0 8 4 10 20 0 \n");
}
