//! DWARF bodies: each is an object of its own, with its family, its load address and one entry.

use crate::{process, Answer};
use symbolic_common::Arch;
use symbolic_debuginfo::dwarf::gimli::{
    CfaRule, Fde, Register, RegisterRule, UnwindExpression, UnwindTableRow,
};
use symbolic_debuginfo::dwarf::ElfObject;
use symbolic_debuginfo::Object;

pub fn answer(bodies: &[&[u32]]) -> Answer {
    let mut text = Vec::new();
    for (i, body) in bodies.iter().enumerate() {
        let entries = [entry(body)];
        let object = ElfObject {
            arch: arch(body[0]),
            load_address: wide(&body[3..]),
            section_name: if i % 2 == 0 { "eh_frame" } else { "debug_frame" },
            entries: &entries,
        };
        let object = if i % 3 == 2 { Object::Wasm(object) } else { Object::Elf(object) };
        text.extend(process(&object, None).text);
    }
    Answer { text, ..Answer::default() }
}

/// All bodies as entries of one object, for bodies that agree about family and load address. The entries stay for good.
pub fn object(bodies: &[&[u32]]) -> Object<'static> {
    let (family, load_address) = bodies.first().map_or((0, 0), |body| (body[0], wide(&body[3..])));
    assert!(bodies.iter().all(|body| body[0] == family && wide(&body[3..]) == load_address));
    let entries: Vec<Fde> = bodies.iter().map(|body| entry(body)).collect();
    Object::Elf(ElfObject { arch: arch(family), load_address, section_name: "eh_frame", entries: entries.leak() })
}

/// An architecture of the family.
fn arch(family: u32) -> Arch {
    let arch = Arch::from_u32(if family == 0 { 0 } else { 100 * family + 1 });
    assert_eq!(arch.cpu_family() as u32, family);
    arch
}

fn wide(words: &[u32]) -> u64 {
    u64::from(words[1]) << 32 | u64::from(words[0])
}

fn entry(body: &[u32]) -> Fde {
    let mut rest = &body[7..];
    let mut rows = Vec::new();
    for _ in 0..body[6] {
        let (rules, after) = rest[9..].split_at(4 * rest[8] as usize);
        rows.push(UnwindTableRow {
            start: wide(rest),
            end: wide(&rest[2..]),
            cfa: cfa(&rest[4..]),
            rules: rules.chunks(4).map(rule).collect(),
        });
        rest = after;
    }
    Fde {
        initial_address: wide(&body[1..]),
        return_register: Register(body[5] as u16),
        rows,
    }
}

fn cfa(words: &[u32]) -> CfaRule<usize> {
    match words[0] {
        0 => CfaRule::RegisterAndOffset {
            register: Register(words[1] as u16),
            offset: wide(&words[2..]) as i64,
        },
        _ => CfaRule::Expression(UnwindExpression(0)),
    }
}

fn rule(words: &[u32]) -> (Register, RegisterRule<usize>) {
    let value = wide(&words[2..]);
    let rule = match words[1] {
        0 => RegisterRule::SameValue,
        1 => RegisterRule::Offset(value as i64),
        2 => RegisterRule::ValOffset(value as i64),
        3 => RegisterRule::Register(Register(value as u16)),
        _ => RegisterRule::Undefined,
    };
    (Register(words[0] as u16), rule)
}
