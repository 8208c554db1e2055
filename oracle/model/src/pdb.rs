//! PDB entries: frame data, a STACK WIN line for each range.

use crate::words::Words;
use crate::{Judged, Tally};
use std::fmt::Write;
use std::ops::Range;

const MOST_TYPE: u32 = 4;
const MOST_RANGES: u32 = 16;
const MOST_PROGRAM: u32 = 1024;
const MOST_CODE_SIZE: u32 = 0x7fff_ffff;
const MOST_16: u32 = 0xffff;

struct Body {
    key: Key,
    params: u32,
    saved: u32,
    locals: u32,
    max_stack: Option<u32>,
    base_pointer: u32,
    has_program: bool,
    has_table: bool,
    prolog: Vec<Range<u32>>,
    code: Vec<Range<u32>>,
    program: String,
}

/// What an entry has in common with one that repeats it: type, start, code size, prolog size.
#[derive(Clone, Copy, PartialEq)]
pub struct Key {
    kind: u32,
    start: u32,
    code_size: u32,
    prolog_size: u32,
}

/// What the entries before leave to an entry.
#[derive(Default)]
pub struct Last {
    /// The key of the last entry not skipped.
    key: Option<Key>,
    /// Whether one was skipped by its size behind it, for the table alone.
    skipped: bool,
}

pub fn entry(body: &[u32], last: &mut Last, tally: &mut Tally) -> Judged {
    let Some(body) = layout(body, tally) else {
        return Judged::Refused(4);
    };
    let key = body.key;
    if key.code_size > MOST_CODE_SIZE {
        last.skipped = true;
        return Judged::Skipped("skip pdb code size");
    }
    if last.key == Some(key) {
        if last.skipped {
            tally.note("pdb repeat behind a skip by size");
        }
        return Judged::Skipped("skip pdb repeat");
    }
    for (size, why) in [(key.prolog_size, "6: pdb prolog size"), (key.code_size, "6: pdb code size")] {
        if key.start.checked_add(size).is_none() {
            tally.count(why);
            return Judged::Refused(6);
        }
    }
    *last = Last { key: Some(key), skipped: false };
    Judged::Text(body.lines(tally))
}

fn layout(body: &[u32], tally: &mut Tally) -> Option<Body> {
    let mut words = Words(body);
    let kind = words.upto(MOST_TYPE)?;
    let (start, code_size) = (words.any()?, words.any()?);
    let prolog_size = words.upto(MOST_16)?;
    let (params, saved, locals) = (words.any()?, words.upto(MOST_16)?, words.any()?);
    let (has_max, max) = (words.flag()?, words.any()?);
    let base_pointer = words.upto(1)?;
    let (has_program, has_table) = (words.flag()?, words.flag()?);
    let (prologs, codes) = (words.upto(MOST_RANGES)?, words.upto(MOST_RANGES)?);
    let length = words.upto(MOST_PROGRAM)?;
    if length > 0 && !(has_program && has_table) {
        return None;
    }
    let (prolog, code) = (ranges(&mut words, prologs, tally)?, ranges(&mut words, codes, tally)?);
    let program = words.many(length, |w| w.any().filter(|c| (32..=126).contains(c)))?;
    words.end()?;
    Some(Body {
        key: Key { kind, start, code_size, prolog_size },
        params,
        saved,
        locals,
        max_stack: has_max.then_some(max),
        base_pointer,
        has_program,
        has_table,
        prolog,
        code,
        program: program.iter().map(|&c| c as u8 as char).collect(),
    })
}

/// Ranges sorted by start.
fn ranges(words: &mut Words, count: u32, tally: &mut Tally) -> Option<Vec<Range<u32>>> {
    let mut ranges = words.many(count, |w| Some(w.any()?..w.any()?))?;
    if !ranges.is_sorted_by_key(|range| range.start) {
        tally.note("pdb ranges out of order");
    }
    ranges.sort_by_key(|range| range.start);
    let ordered = ranges.iter().all(|range| range.start <= range.end);
    let differ = ranges.windows(2).all(|two| two[0].start != two[1].start);
    (ordered && differ).then_some(ranges)
}

impl Body {
    fn lines(&self, tally: &mut Tally) -> String {
        let mut text = String::new();
        match (&self.prolog[..], &self.code[..]) {
            ([prolog], [code]) if prolog.end == code.start => {
                tally.note("pdb one line over both");
                let size = prolog.end - prolog.start;
                self.line(&mut text, prolog.start..code.end, size, tally);
            }
            (prologs, codes) => {
                tally.note(match prologs.len() + codes.len() {
                    0 => "pdb no range",
                    1 => "pdb ranges apart: 1",
                    _ => "pdb ranges apart: more",
                });
                for range in prologs {
                    self.line(&mut text, range.clone(), range.end - range.start, tally);
                }
                for range in codes {
                    self.line(&mut text, range.clone(), 0, tally);
                }
            }
        }
        text
    }

    fn line(&self, text: &mut String, range: Range<u32>, prolog_size: u32, tally: &mut Tally) {
        tally.note("line WIN");
        tally.note(if self.max_stack.is_some() { "pdb max stack" } else { "pdb no max stack" });
        if range.is_empty() {
            tally.note("pdb empty range");
        }
        let fields = [
            self.key.kind,
            range.start,
            range.end - range.start,
            prolog_size,
            0,
            self.params,
            self.saved,
            self.locals,
            self.max_stack.unwrap_or(0),
        ];
        text.push_str("STACK WIN");
        for field in fields {
            write!(text, " {field:x}").unwrap();
        }
        let (flag, tail) = match (self.has_program, self.has_table) {
            (true, true) => (1, self.program.trim_matches(' ').to_string()),
            (true, false) => (0, String::new()),
            (false, _) => (0, self.base_pointer.to_string()),
        };
        tally.note(self.tail_form(&tail));
        writeln!(text, " {flag} {tail}").unwrap();
    }
    fn tail_form(&self, tail: &str) -> &'static str {
        match (self.has_program, self.has_table, self.base_pointer) {
            (true, true, _) if tail.is_empty() => "pdb flag 1, program empty",
            (true, true, _) if tail.len() < self.program.len() => "pdb flag 1, program trimmed",
            (true, true, _) => "pdb flag 1, program",
            (true, false, _) => "pdb flag 0, program without table",
            (false, _, 0) => "pdb flag 0, base pointer 0",
            (false, _, _) => "pdb flag 0, base pointer 1",
        }
    }
}
