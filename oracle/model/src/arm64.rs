//! ARM64 entries: the operations before the first end, run backwards, a line for each.

use crate::words::Words;
use crate::{in_reach, Judged, Tally};
use std::fmt::Write;

const MOST_OPERATIONS: u32 = 1024;
const LR: u32 = 30;

struct Body {
    address: u32,
    size: u32,
    operations: Vec<Operation>,
}

/// A saved register or pair: letter, register, value.
struct Save {
    letter: char,
    register: u32,
    value: u32,
}

enum Operation {
    Allocate(u32),
    Single(Save),
    SinglePre(Save),
    Pair(Save),
    PairPre(Save),
    RegisterAndLr(Save),
    Next,
    Other,
    End,
    Undecodable,
}
use Operation::*;

pub fn entry(body: &[u32], tally: &mut Tally) -> Judged {
    let Some(body) = layout(body) else {
        return Judged::Refused(4);
    };
    let counting = body.operations.iter().position(|o| matches!(o, End));
    let counting = &body.operations[..counting.unwrap_or(body.operations.len())];
    if counting.len() < body.operations.len() {
        tally.note("arm64 end");
    }
    if counting.iter().any(|o| matches!(o, Undecodable)) {
        return Judged::Skipped("skip arm64 undecodable");
    }
    if body.operations.iter().any(|o| matches!(o, Undecodable)) {
        tally.note("arm64 undecodable behind the end");
    }
    if counting.is_empty() {
        tally.note("arm64 entry without line");
    }
    let mut encoder = Encoder::new();
    for (i, operation) in counting.iter().rev().enumerate() {
        encoder.line(&body, i as u64, operation, tally);
    }
    if let Some(why) = encoder.out_of_reach {
        tally.count(why);
        return Judged::Refused(6);
    }
    Judged::Text(encoder.text)
}

fn layout(body: &[u32]) -> Option<Body> {
    let mut words = Words(body);
    let (address, size) = (words.any()?, words.any()?);
    let count = words.upto(MOST_OPERATIONS)?;
    let operations = words.many(count, operation)?;
    words.end()?;
    Some(Body { address, size, operations })
}

fn operation(words: &mut Words) -> Option<Operation> {
    let (kind, letter) = (words.any()?, words.any()?);
    let (register, value) = (words.any()?, words.any()?);
    let letter = match letter {
        0 => 'x',
        1 => 'd',
        _ => 'q',
    };
    let save = (register <= 255).then_some(Save { letter, register, value });
    Some(match kind {
        1 => Allocate(value),
        2 => Single(save?),
        3 => SinglePre(save?),
        4 => Pair(save?),
        5 => PairPre(save?),
        6 => RegisterAndLr(Save { letter: 'x', ..save? }),
        7 => Next,
        8 => Other,
        9 => End,
        10 => Undecodable,
        _ => return None,
    })
}

/// How far a pair's second lies above its first.
fn width(letter: char) -> i64 {
    if letter == 'q' {
        16
    } else {
        8
    }
}

fn note_saved(letter: char, names: [&'static str; 3], tally: &mut Tally) {
    tally.note("rule at CFA + number");
    tally.note(match letter {
        'x' => names[0],
        'd' => names[1],
        _ => names[2],
    });
}

struct Encoder {
    total: i64,
    /// Letter, second register and its place of the last pair.
    last: (char, u32, i64),
    cfa_written: bool,
    ra_written: bool,
    /// The first number out of reach.
    out_of_reach: Option<&'static str>,
    text: String,
}

impl Encoder {
    fn new() -> Self {
        Encoder {
            total: 0,
            last: ('x', 0, 0),
            cfa_written: false,
            ra_written: false,
            out_of_reach: None,
            text: String::new(),
        }
    }

    fn lost(&mut self, lost: bool, why: &'static str) {
        if lost {
            self.out_of_reach.get_or_insert(why);
        }
    }

    fn line(&mut self, body: &Body, i: u64, operation: &Operation, tally: &mut Tally) {
        let address = u64::from(body.address) + 4 * i;
        self.lost(address > u64::from(u32::MAX), "6: arm64 line address");
        if i == 0 {
            write!(self.text, "STACK CFI INIT {address:x} {:x}", body.size).unwrap();
        } else {
            write!(self.text, "STACK CFI      {address:x}").unwrap();
        }
        tally.note(if i == 0 { "line INIT" } else { "line later, six spaces" });
        self.cfa_written = false;
        self.ra_written = false;
        self.operation(operation, tally);
        if i == 0 && !self.cfa_written {
            tally.note("arm64 default cfa");
            tally.note("rule register");
            self.text.push_str(" .cfa: .sp");
        }
        if i == 0 && !self.ra_written {
            tally.note("arm64 default ra");
            tally.note("rule register");
            self.text.push_str(" .ra: .x30");
        }
        self.text.push('\n');
    }

    fn operation(&mut self, operation: &Operation, tally: &mut Tally) {
        match operation {
            Allocate(value) => {
                tally.note("arm64 allocate");
                let value = self.value(*value);
                self.allocate(value, tally);
            }
            Single(save) => {
                note_saved(save.letter, ["arm64 save x", "arm64 save d", "arm64 save q"], tally);
                let place = self.value(save.value) - self.total;
                self.save(save.letter, save.register, place);
            }
            SinglePre(save) => {
                note_saved(save.letter, ["arm64 save pre x", "arm64 save pre d", "arm64 save pre q"], tally);
                let place = self.pre_indexed(save.value, tally);
                self.save(save.letter, save.register, place);
            }
            Pair(save) => {
                note_saved(save.letter, ["arm64 pair x", "arm64 pair d", "arm64 pair q"], tally);
                let place = self.value(save.value) - self.total;
                self.pair(save.letter, save.register, place, tally);
            }
            PairPre(save) => {
                note_saved(save.letter, ["arm64 pair pre x", "arm64 pair pre d", "arm64 pair pre q"], tally);
                let place = self.pre_indexed(save.value, tally);
                self.pair(save.letter, save.register, place, tally);
            }
            RegisterAndLr(save) => self.register_and_lr(save, tally),
            Next => self.save_next(tally),
            Other => {
                tally.note("arm64 other");
                self.allocate(0, tally);
            }
            End | Undecodable => unreachable!("not counting"),
        }
    }

    fn value(&mut self, value: u32) -> i64 {
        self.lost(value >= 1 << 31, "6: arm64 value");
        i64::from(value)
    }

    fn allocate(&mut self, value: i64, tally: &mut Tally) {
        self.total += value;
        self.lost(!in_reach(self.total), "6: arm64 total");
        tally.note("rule register + number");
        self.cfa_written = true;
        write!(self.text, " .cfa: .sp {} +", self.total).unwrap();
    }

    /// The place of a pre-indexed save; writes the CFA and lets the total grow.
    fn pre_indexed(&mut self, value: u32, tally: &mut Tally) -> i64 {
        let value = self.value(value);
        let place = -value - self.total;
        self.allocate(value, tally);
        place
    }

    fn save(&mut self, letter: char, register: u32, place: i64) {
        self.lost(register > 255, "6: arm64 register");
        self.lost(!in_reach(place), "6: arm64 place");
        write!(self.text, " .{letter}{register}: .cfa {place} + ^").unwrap();
    }

    fn return_address(&mut self, place: i64) {
        self.ra_written = true;
        write!(self.text, " .ra: .cfa {place} + ^").unwrap();
    }

    fn pair(&mut self, letter: char, register: u32, place: i64, tally: &mut Tally) {
        let second = place + width(letter);
        self.save(letter, register, place);
        self.save(letter, register + 1, second);
        if letter == 'x' && register + 1 == LR {
            tally.note("arm64 ra of a pair");
            self.return_address(second);
        }
        self.last = (letter, register + 1, second);
    }

    fn save_next(&mut self, tally: &mut Tally) {
        let (letter, register, place) = self.last;
        note_saved(letter, ["arm64 save next x", "arm64 save next d", "arm64 save next q"], tally);
        self.pair(letter, register + 1, place + width(letter), tally);
    }

    fn register_and_lr(&mut self, save: &Save, tally: &mut Tally) {
        tally.note("arm64 register and lr");
        let place = self.value(save.value) - self.total;
        self.save('x', save.register, place);
        self.save('x', LR, place + 8);
        self.return_address(place + 8);
    }
}
