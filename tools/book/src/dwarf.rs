//! DWARF entries: `entry family amd64 initial 0x1000 load 0x0 return 16`, rows and their rules.

use crate::line::{Error, Line};
use crate::{Form, Unused};
use stacklines_book::dwarf::{Cfa, Dwarf, Family, Row, Rule, MOST_ROWS};
use std::fmt::Write;

impl Form for Dwarf {
    fn parse(head: &mut Line, rest: &mut [Line]) -> Result<(Dwarf, Vec<u32>), Error> {
        head.keyword("family")?;
        let family = head.named("family", Family::from_name, Family::from_number)?;
        let (initial_address, load_address) = (head.field("initial")?, head.field("load")?);
        let return_register = head.field("return")?;
        head.end()?;
        let mut rows: Vec<Row> = Vec::new();
        let mut unused = Vec::new();
        for line in rest {
            if line.is("row") {
                rows.push(row(line, &mut unused)?);
                if rows.len() > MOST_ROWS {
                    return Err(line.error("an entry has more than 1,024 rows"));
                }
                continue;
            }
            let Some(row) = rows.last_mut() else {
                return Err(line.error("a rule belongs to a row: expected 'row'"));
            };
            row.rules.push(rule(line, &mut unused)?);
            row.check().map_err(|fault| line.error(fault.what()))?;
        }
        Ok((Dwarf { family, initial_address, load_address, return_register, rows }, unused))
    }

    fn show(&self, unused: &mut Unused) -> String {
        let Dwarf { initial_address, load_address, return_register, .. } = self;
        let family = self.family.name();
        let mut text = format!(
            "entry family {family} initial {initial_address:#x} load {load_address:#x} return {return_register}\n"
        );
        for row in &self.rows {
            let spare = unused.take(row.cfa.unused());
            let cfa = show_cfa(&row.cfa);
            writeln!(text, "  row start {:#x} end {:#x} cfa {cfa}{spare}", row.start, row.end).expect("a string grows");
            for (register, rule) in &row.rules {
                let spare = unused.take(rule.unused());
                writeln!(text, "    rule {register} {}{spare}", show_rule(rule)).expect("a string grows");
            }
        }
        text
    }
}

fn row(line: &mut Line, unused: &mut Vec<u32>) -> Result<Row, Error> {
    line.keyword("row")?;
    let (start, end) = (line.field("start")?, line.field("end")?);
    line.keyword("cfa")?;
    let cfa = if line.take("expression") {
        Cfa::Expression
    } else {
        Cfa::RegisterAndOffset { register: line.number("a register or 'expression'")?, offset: line.field("offset")? }
    };
    line.end_with_unused(cfa.unused(), unused)?;
    Ok(Row { start, end, cfa, rules: Vec::new() })
}

fn rule(line: &mut Line, unused: &mut Vec<u32>) -> Result<(u16, Rule), Error> {
    let register = line.field("rule")?;
    let rule = match line.word("a kind of rule")? {
        "same" => Rule::Same,
        "offset" => Rule::Offset(line.number("an offset")?),
        "value-offset" => Rule::ValueOffset(line.number("an offset")?),
        "register" => Rule::Register(line.number("a register")?),
        "other" => Rule::Other,
        word => return Err(line.error(&format!("there is no kind of rule '{word}'"))),
    };
    line.end_with_unused(rule.unused(), unused)?;
    Ok((register, rule))
}

fn show_cfa(cfa: &Cfa) -> String {
    match cfa {
        Cfa::RegisterAndOffset { register, offset } => format!("{register} offset {offset}"),
        Cfa::Expression => "expression".to_string(),
    }
}

fn show_rule(rule: &Rule) -> String {
    match rule {
        Rule::Same => "same".to_string(),
        Rule::Offset(offset) => format!("offset {offset}"),
        Rule::ValueOffset(offset) => format!("value-offset {offset}"),
        Rule::Register(register) => format!("register {register}"),
        Rule::Other => "other".to_string(),
    }
}
