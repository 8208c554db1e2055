//! x64 entries: `entry begin 0x1000 end 0x1040 info 0x5000`, infos and their operations.

use crate::line::{Error, Line};
use crate::{Form, Unused};
use stacklines_book::x64::{Info, Operation, Register, X64};
use stacklines_book::Entry;
use std::fmt::Write;

impl Form for X64 {
    fn parse(head: &mut Line, rest: &mut [Line]) -> Result<(X64, Vec<u32>), Error> {
        let (begin, end, info_address) = (head.field("begin")?, head.field("end")?, head.field("info")?);
        head.end()?;
        let mut entry = X64 { begin, end, info_address, infos: Vec::new() };
        let mut unused = Vec::new();
        for line in rest {
            if line.take("info") {
                entry.infos.push(info(line)?);
                entry.check().map_err(|fault| line.error(fault.what()))?;
                continue;
            }
            let Some(info) = entry.infos.last_mut() else {
                return Err(line.error("an operation belongs to an info: expected 'info'"));
            };
            let operation = operation(line)?;
            line.end_with_unused(operation.unused(), &mut unused)?;
            info.operations.push(operation);
            info.check().map_err(|fault| line.error(fault.what()))?;
        }
        Ok((entry, unused))
    }

    fn show(&self, unused: &mut Unused) -> String {
        let mut text = format!("entry begin {:#x} end {:#x} info {:#x}\n", self.begin, self.end, self.info_address);
        for info in &self.infos {
            text.push_str(&show_info(info));
            for operation in &info.operations {
                let spare = unused.take(operation.unused());
                writeln!(text, "    {}{spare}", show_operation(operation)).expect("a string grows");
            }
        }
        text
    }
}

/// An info without a frame register is `info` alone.
fn info(line: &mut Line) -> Result<Info, Error> {
    let mut info = Info::default();
    if line.has_more() {
        line.keyword("frame")?;
        info.frame_register = register(line)?;
        info.frame_offset = line.field("offset")?;
    }
    line.end()?;
    Ok(info)
}

fn register(line: &mut Line) -> Result<Register, Error> {
    line.named("register", Register::from_name, Register::from_number)
}

fn operation(line: &mut Line) -> Result<Operation, Error> {
    Ok(match line.word("an operation")? {
        "push" => Operation::Push(register(line)?),
        "allocate" => Operation::Allocate(line.number("allocate")?),
        "save" => save(line)?,
        "set" => {
            line.keyword("frame")?;
            Operation::SetFrame
        }
        "machine" => {
            line.keyword("frame")?;
            Operation::MachineFrame { error_code: line.take("code") }
        }
        "other" => Operation::Other,
        "undecodable" => Operation::Undecodable,
        word => return Err(line.error(&format!("there is no operation '{word}'"))),
    })
}

fn save(line: &mut Line) -> Result<Operation, Error> {
    let register = register(line)?;
    line.keyword("at")?;
    if line.take("frame") {
        return Ok(Operation::SaveAtFrame { register, offset: line.number("an offset")? });
    }
    line.keyword("rsp")?;
    Ok(Operation::SaveAtRsp { register, offset: line.number("an offset")? })
}

fn show_info(info: &Info) -> String {
    match (info.frame_register, info.frame_offset) {
        (Register::Rax, 0) => "  info\n".to_string(),
        (register, offset) => format!("  info frame {} offset {offset}\n", register.name()),
    }
}

fn show_operation(operation: &Operation) -> String {
    match operation {
        Operation::Push(register) => format!("push {}", register.name()),
        Operation::Allocate(value) => format!("allocate {value}"),
        Operation::SaveAtRsp { register, offset } => {
            format!("save {} at rsp {offset}", register.name())
        }
        Operation::SaveAtFrame { register, offset } => {
            format!("save {} at frame {offset}", register.name())
        }
        Operation::SetFrame => "set frame".to_string(),
        Operation::MachineFrame { error_code: false } => "machine frame".to_string(),
        Operation::MachineFrame { error_code: true } => "machine frame code".to_string(),
        Operation::Other => "other".to_string(),
        Operation::Undecodable => "undecodable".to_string(),
    }
}
