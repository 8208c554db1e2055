//! ARM64 entries: `entry address 0x1000 size 0x40` and operations.

use crate::line::{Error, Line};
use crate::{Form, Unused};
use stacklines_book::arm64::{Arm64, Letter, Operation, Slot};
use stacklines_book::Entry;
use std::fmt::Write;

impl Form for Arm64 {
    fn parse(head: &mut Line, rest: &mut [Line]) -> Result<(Arm64, Vec<u32>), Error> {
        let (address, size) = (head.field("address")?, head.field("size")?);
        head.end()?;
        let mut entry = Arm64 { address, size, operations: Vec::new() };
        let mut unused = Vec::new();
        for line in rest {
            let operation = operation(line)?;
            line.end_with_unused(operation.unused(), &mut unused)?;
            entry.operations.push(operation);
            entry.check().map_err(|fault| line.error(fault.what()))?;
        }
        Ok((entry, unused))
    }

    fn show(&self, unused: &mut Unused) -> String {
        let mut text = format!("entry address {:#x} size {:#x}\n", self.address, self.size);
        for operation in &self.operations {
            let spare = unused.take(operation.unused());
            writeln!(text, "  {}{spare}", show_operation(operation)).expect("a string grows");
        }
        text
    }
}

fn operation(line: &mut Line) -> Result<Operation, Error> {
    Ok(match line.word("an operation")? {
        "allocate" => Operation::Allocate(line.number("allocate")?),
        "save" => saved(line, Operation::Save, Operation::SavePre)?,
        "pair" => saved(line, Operation::Pair, Operation::PairPre)?,
        "lrpair" => lr_pair(line)?,
        "save-next" => Operation::SaveNext,
        "other" => Operation::Other,
        "end" => Operation::End,
        "undecodable" => Operation::Undecodable,
        word => return Err(line.error(&format!("there is no operation '{word}'"))),
    })
}

/// `x19 at 16` or `x19 pre 16`, for a letter above 2 with `letter N` behind it.
fn saved(line: &mut Line, at: fn(Slot) -> Operation, pre: fn(Slot) -> Operation) -> Result<Operation, Error> {
    let (letter, register) = register(line)?;
    let pre_indexed = line.take("pre");
    if !pre_indexed {
        line.keyword("at")?;
    }
    let offset = line.number("an offset")?;
    let mut slot = Slot { letter, register, offset };
    if letter == Letter::Q && line.take("letter") {
        slot.letter = Letter(line.number("a letter")?);
        if slot.letter.name() != 'q' {
            return Err(line.error("the letter of a q register is not 0 or 1"));
        }
    }
    Ok(if pre_indexed { pre(slot) } else { at(slot) })
}

fn lr_pair(line: &mut Line) -> Result<Operation, Error> {
    let (letter, register) = register(line)?;
    if letter != Letter::X {
        return Err(line.error("the register beside lr is an x register"));
    }
    Ok(Operation::LrPair { register, offset: line.field("at")? })
}

fn register(line: &mut Line) -> Result<(Letter, u8), Error> {
    let word = line.word("a register")?;
    let letters = [Letter::X, Letter::D, Letter::Q];
    let known = letters.into_iter().find_map(|letter| {
        let digits = word.strip_prefix(letter.name())?;
        let plain = digits.bytes().all(|byte| byte.is_ascii_digit());
        Some((letter, digits.parse().ok().filter(|_| plain)?))
    });
    known.ok_or_else(|| line.error(&format!("there is no register '{word}'")))
}

fn show_operation(operation: &Operation) -> String {
    match operation {
        Operation::Allocate(value) => format!("allocate {value}"),
        Operation::Save(slot) => show_saved("save", "at", slot),
        Operation::SavePre(slot) => show_saved("save", "pre", slot),
        Operation::Pair(slot) => show_saved("pair", "at", slot),
        Operation::PairPre(slot) => show_saved("pair", "pre", slot),
        Operation::LrPair { register, offset } => format!("lrpair x{register} at {offset}"),
        Operation::SaveNext => "save-next".to_string(),
        Operation::Other => "other".to_string(),
        Operation::End => "end".to_string(),
        Operation::Undecodable => "undecodable".to_string(),
    }
}

fn show_saved(what: &str, place: &str, slot: &Slot) -> String {
    let Slot { letter, register, offset } = slot;
    let text = format!("{what} {}{register} {place} {offset}", letter.name());
    if letter.0 > Letter::Q.0 {
        return format!("{text} letter {}", letter.0);
    }
    text
}
