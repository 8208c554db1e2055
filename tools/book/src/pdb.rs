//! PDB entries: one line of numbers, then what else there is, each on a line of its own.

use crate::line::{quote, Error, Line};
use crate::{Form, Unused};
use stacklines_book::pdb::{FrameType, Pdb, Range};
use stacklines_book::Entry;
use std::fmt::Write;

impl Form for Pdb {
    fn parse(head: &mut Line, rest: &mut [Line]) -> Result<(Pdb, Vec<u32>), Error> {
        head.keyword("type")?;
        let mut entry = Pdb {
            frame_type: head.named("type", FrameType::from_name, FrameType::from_number)?,
            code_start: head.field("start")?,
            code_size: head.field("size")?,
            prolog_size: head.field("prolog")?,
            params_size: head.field("params")?,
            saved_registers_size: head.field("saved")?,
            locals_size: head.field("locals")?,
            ..Pdb::default()
        };
        head.end()?;
        let mut unused = Vec::new();
        let mut seen = Vec::new();
        for line in rest {
            let word = line.word("a line of an entry")?;
            let about = match word {
                "string" => "program",
                "max" => "max stack",
                "base" => "base pointer",
                word => word,
            };
            if seen.contains(&about) {
                return Err(line.error(&format!("the entry has a line about its {about} already")));
            }
            if !["prolog", "code"].contains(&about) {
                seen.push(about);
            }
            part(&mut entry, word, line, &mut unused)?;
            line.end()?;
            entry.check().map_err(|fault| line.error(fault.what()))?;
        }
        Ok((entry, unused))
    }

    fn show(&self, unused: &mut Unused) -> String {
        let mut text =
            format!("entry type {} start {:#x} size {:#x}", self.frame_type.name(), self.code_start, self.code_size);
        let (saved, locals) = (self.saved_registers_size, self.locals_size);
        let mut add = |part: String| text.push_str(&part);
        add(format!(" prolog {} params {} saved {saved} locals {locals}\n", self.prolog_size, self.params_size));
        add(show_max_stack(self.max_stack_size, unused));
        if self.uses_base_pointer {
            add("  base pointer\n".to_string());
        }
        add(match (&self.program, self.string_table) {
            (Some(program), true) => format!("  program {}\n", quote(program)),
            (Some(_), false) => "  program without table\n".to_string(),
            (None, true) => "  string table\n".to_string(),
            (None, false) => String::new(),
        });
        add(show_ranges("prolog", &self.prolog_ranges));
        add(show_ranges("code", &self.code_ranges));
        text
    }
}

/// One line of an entry.
fn part(entry: &mut Pdb, word: &str, line: &mut Line, unused: &mut Vec<u32>) -> Result<(), Error> {
    match word {
        "max" => max_stack(entry, line, unused)?,
        "base" => {
            line.keyword("pointer")?;
            entry.uses_base_pointer = true;
        }
        "string" => {
            line.keyword("table")?;
            entry.string_table = true;
        }
        "program" => program(entry, line)?,
        "prolog" => entry.prolog_ranges.push(range(line)?),
        "code" => entry.code_ranges.push(range(line)?),
        _ => return Err(line.error(&format!("an entry has no line '{word}'"))),
    }
    Ok(())
}

/// `max stack 32`, or `max stack none unused 5`.
fn max_stack(entry: &mut Pdb, line: &mut Line, unused: &mut Vec<u32>) -> Result<(), Error> {
    line.keyword("stack")?;
    if line.take("none") {
        return line.end_with_unused(1, unused);
    }
    entry.max_stack_size = Some(line.number("max stack")?);
    Ok(())
}

/// A program in quotes, found in the string table; or one without a table to find it in.
fn program(entry: &mut Pdb, line: &mut Line) -> Result<(), Error> {
    if line.take("without") {
        line.keyword("table")?;
        entry.program = Some(String::new());
    } else {
        entry.program = Some(line.quoted()?);
        entry.string_table = true;
    }
    Ok(())
}

fn range(line: &mut Line) -> Result<Range, Error> {
    Ok(Range { start: line.number("a start")?, end: line.field("to")? })
}

fn show_max_stack(size: Option<u32>, unused: &mut Unused) -> String {
    match size {
        Some(size) => format!("  max stack {size}\n"),
        None => match unused.take(1) {
            spare if spare.is_empty() => String::new(),
            spare => format!("  max stack none{spare}\n"),
        },
    }
}

fn show_ranges(name: &str, ranges: &[Range]) -> String {
    let mut text = String::new();
    for range in ranges {
        writeln!(text, "  {name} {:#x} to {:#x}", range.start, range.end).expect("a string grows");
    }
    text
}
