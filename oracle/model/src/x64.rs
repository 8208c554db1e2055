//! x64 entries: the chain of infos run last to first, that is the outermost parent first, each info's operations backwards; one INIT line.

use crate::names::PE_X64;
use crate::words::Words;
use crate::{in_reach, Judged, Tally};
use std::fmt::Write;

const MOST_INFOS: u32 = 32;
const MOST_FRAME_OFFSET: u32 = 240;
const MOST_OPERATIONS: u32 = 255;

struct Body {
    begin: u32,
    end: u32,
    address: u32,
    /// As stored: the function's own, its parent, and so on.
    infos: Vec<Info>,
}

struct Info {
    frame_register: u32,
    frame_offset: u32,
    operations: Vec<Operation>,
}

enum Operation {
    Push(u32),
    Allocate(u32),
    SaveRsp(u32, u32),
    SaveFp(u32, u32),
    Set,
    MachineFrame { error_code: bool },
    Other,
    Undecodable,
}
use Operation::*;

pub fn entry(body: &[u32], limit: u32, tally: &mut Tally) -> Judged {
    let Some(body) = layout(body) else {
        return Judged::Refused(4);
    };
    if let Some(why) = skipped(&body, limit) {
        return Judged::Skipped(why);
    }
    if body.infos.len() > limit as usize {
        if body.infos.iter().any(undecodable) {
            tally.count("x64 undecodable behind the limit");
        }
        return Judged::Refused(5);
    }
    let mut run = Run::new();
    for info in body.infos.iter().rev() {
        for operation in info.operations.iter().rev() {
            run.operation(info, operation, tally);
        }
    }
    if let Some(why) = run.out_of_reach {
        tally.count(why);
        return Judged::Refused(6);
    }
    if run.cfa.len() > 1 {
        return Judged::Refused(7);
    }
    tally.note(match body.infos.len() {
        1 => "x64 infos: 1",
        2..=31 => "x64 infos: 2 to 31",
        _ => "x64 infos: 32",
    });
    Judged::Text(run.line(&body, tally))
}

fn layout(body: &[u32]) -> Option<Body> {
    let mut words = Words(body);
    let (begin, end, address) = (words.any()?, words.any()?, words.any()?);
    let infos = words.upto(MOST_INFOS).filter(|&n| n > 0)?;
    let infos = words.many(infos, info)?;
    words.end()?;
    Some(Body { begin, end, address, infos })
}

fn info(words: &mut Words) -> Option<Info> {
    let frame_register = words.upto(15)?;
    let frame_offset = words.upto(MOST_FRAME_OFFSET)?;
    let count = words.upto(MOST_OPERATIONS)?;
    let operations = words.many(count, operation)?;
    Some(Info { frame_register, frame_offset, operations })
}

fn operation(words: &mut Words) -> Option<Operation> {
    let (kind, register, value) = (words.any()?, words.any()?, words.any()?);
    let used_register = (register <= 15).then_some(register);
    Some(match kind {
        1 => Push(used_register?),
        2 => Allocate(value),
        3 => SaveRsp(used_register?, value),
        4 => SaveFp(used_register?, value),
        5 => Set,
        6 if value <= 1 => MachineFrame { error_code: value == 1 },
        7 => Other,
        8 => Undecodable,
        _ => return None,
    })
}

fn undecodable(info: &Info) -> bool {
    info.operations.iter().any(|o| matches!(o, Undecodable))
}

fn skipped(body: &Body, limit: u32) -> Option<&'static str> {
    if (body.begin, body.end, body.address) == (0, 0, 0) {
        Some("skip x64 all zero")
    } else if body.end < body.begin {
        Some("skip x64 end below begin")
    } else if body.infos.iter().take(limit as usize).any(undecodable) {
        Some("skip x64 undecodable")
    } else {
        None
    }
}

struct Run {
    total: i64,
    /// One for each frame register set.
    cfa: Vec<String>,
    rules: String,
    machine_frame: bool,
    /// The first number out of reach.
    out_of_reach: Option<&'static str>,
}

impl Run {
    fn new() -> Self {
        Run {
            total: 8,
            cfa: Vec::new(),
            rules: String::new(),
            machine_frame: false,
            out_of_reach: None,
        }
    }

    fn lost(&mut self, lost: bool, why: &'static str) {
        if lost {
            self.out_of_reach.get_or_insert(why);
        }
    }

    fn grow(&mut self, by: i64) {
        self.total += by;
        self.lost(!in_reach(self.total), "6: x64 total");
    }

    /// A place that is printed.
    fn place(&mut self, n: i64) -> i64 {
        self.lost(!in_reach(n), "6: x64 place");
        n
    }

    /// A value that is used.
    fn value(&mut self, value: u32) -> i64 {
        self.lost(value >= 1 << 31, "6: x64 value");
        i64::from(value)
    }

    fn operation(&mut self, info: &Info, operation: &Operation, tally: &mut Tally) {
        let frame = PE_X64[info.frame_register as usize];
        let frame_offset = i64::from(info.frame_offset);
        match *operation {
            Push(register) => {
                tally.note("x64 push");
                self.grow(8);
                self.save_below_cfa(register, self.total, tally);
            }
            Allocate(value) => {
                tally.note("x64 allocate");
                let value = self.value(value);
                self.grow(value);
            }
            SaveRsp(register, value) => {
                let place = self.total - self.value(value);
                tally.note(if place < 0 { "x64 save rsp above the CFA" } else { "x64 save rsp" });
                self.save_below_cfa(register, place, tally);
            }
            SaveFp(register, value) => {
                let place = self.value(value) - frame_offset;
                tally.note(if place < 0 { "x64 save fp below the register" } else { "x64 save fp" });
                tally.note("rule at register + number");
                let place = self.place(place);
                let name = PE_X64[register as usize];
                write!(self.rules, " {name}: {frame} {place} + ^").unwrap();
            }
            Set => {
                tally.note("x64 set frame register");
                let place = self.place(self.total - frame_offset);
                self.cfa.push(format!(".cfa: {frame} {place} +"));
            }
            MachineFrame { error_code } => self.machine_frame(error_code, tally),
            Other => tally.note("x64 other"),
            Undecodable => unreachable!("skipped"),
        }
    }

    fn save_below_cfa(&mut self, register: u32, place: i64, tally: &mut Tally) {
        tally.note("rule at CFA - number");
        let place = self.place(place);
        let name = PE_X64[register as usize];
        write!(self.rules, " {name}: .cfa {place} - ^").unwrap();
    }

    fn machine_frame(&mut self, error_code: bool, tally: &mut Tally) {
        tally.note(if error_code { "x64 machine frame, error code" } else { "x64 machine frame" });
        let rsp = self.place(self.total + 16);
        let ra = self.place(self.total + 40);
        write!(self.rules, " $rsp: .cfa {rsp} - ^ .ra: .cfa {ra} - ^").unwrap();
        self.machine_frame = true;
        self.grow(40);
        if error_code {
            self.grow(8);
        }
    }

    fn line(self, body: &Body, tally: &mut Tally) -> String {
        tally.note("line INIT");
        tally.note("rule register + number");
        let (begin, size) = (body.begin, body.end - body.begin);
        let cfa = match self.cfa.first() {
            Some(cfa) => cfa.clone(),
            None => format!(".cfa: $rsp {} +", self.total),
        };
        let rules = self.rules;
        let ra = if self.machine_frame { "" } else { " .ra: .cfa 8 - ^" };
        format!("STACK CFI INIT {begin:x} {size:x} {cfa}{rules}{ra}\n")
    }
}
