//! The second program for x64 chains: the line of a body, worked out as Microsoft's page on x64 exception handling lets the unwinder go.
//!
//! The unwinder stands behind the whole prologue and goes up the stack. It undoes the codes of the function's own part as they are stored, then those
//! of its parent, and so on to the outermost; what lies above is the return address. On the way it is noted where each register is read, as a
//! distance from the stack pointer at the start. Only at the top is it known where the CFA lies, and the places become distances from it.
//!
//! x64.rs runs the prologue downwards instead. The two share the words and the register names, and nothing else.

use crate::names::PE_X64;
use crate::words::Words;

/// Codes: kind, register, value.
pub type Code = [u32; 3];

pub const PUSH: u32 = 1;
pub const ALLOCATE: u32 = 2;
pub const SAVE_RSP: u32 = 3;
pub const SAVE_FP: u32 = 4;
pub const SET_FRAME: u32 = 5;
pub const MACHINE_FRAME: u32 = 6;
/// What is undone without anything that is written.
pub const OTHER: u32 = 7;

/// Bytes of a word on the stack.
const SLOT: i64 = 8;

/// What lies on the stack behind an interrupt, from below: RIP, CS, EFLAGS, RSP, SS. The names are of what is read back.
const INTERRUPTED: [Option<&str>; 5] = [Some(".ra"), None, None, Some("$rsp"), None];

/// One info of a chain, its codes as stored.
pub struct Part {
    pub frame_register: u32,
    pub frame_offset: u32,
    pub codes: Vec<Code>,
}

/// The infos of a body: the function's own part, its parent, and so on. None where the words are no body.
pub fn parts(body: &[u32]) -> Option<Vec<Part>> {
    let mut words = Words(body.get(3..)?);
    let count = words.any()?;
    words.many(count, part)
}

fn part(words: &mut Words) -> Option<Part> {
    let (frame_register, frame_offset, count) = (words.any()?, words.any()?, words.any()?);
    let codes = words.many(count, |words| Some([words.any()?, words.any()?, words.any()?]))?;
    Some(Part { frame_register, frame_offset, codes })
}

/// The line of a body that is written: neither refused nor skipped.
pub fn line(body: &[u32]) -> String {
    let mut unwinder = Unwinder::default();
    for part in parts(body).expect("a body that keeps its layout") {
        for code in &part.codes {
            unwinder.undo(&part, *code);
        }
    }
    let (begin, size) = (body[0], body[1] - body[0]);
    format!("STACK CFI INIT {begin:x} {size:x} {}\n", unwinder.rules())
}

/// The body with its infos the other way round. Its line is that of the infos run first to last, as the Rust has it.
pub fn turned(body: &[u32]) -> Vec<u32> {
    let mut turned = body[..4].to_vec();
    for part in parts(body).expect("a body that keeps its layout").iter().rev() {
        turned.extend([part.frame_register, part.frame_offset, part.codes.len() as u32]);
        turned.extend(part.codes.iter().flatten());
    }
    turned
}

/// From where a register is read.
enum Place {
    /// So far above the stack pointer at the start.
    Stack(i64),
    /// So far above a frame register.
    Frame(&'static str, i64),
}

#[derive(Default)]
struct Unwinder {
    /// The stack pointer, as far as the codes are undone: so far above where it was at the start.
    stack_pointer: i64,
    /// What was read, and from where, in the order of reading.
    reads: Vec<(&'static str, Place)>,
    /// A frame register that was set, and how far above the stack pointer at the start it points.
    frame: Option<(&'static str, i64)>,
    interrupted: bool,
}

impl Unwinder {
    fn undo(&mut self, part: &Part, [kind, register, value]: Code) {
        let (value, frame_offset) = (i64::from(value), i64::from(part.frame_offset));
        let frame = PE_X64[part.frame_register as usize];
        match kind {
            PUSH => {
                self.read(name(register), self.stack_pointer);
                self.stack_pointer += SLOT;
            }
            ALLOCATE => self.stack_pointer += value,
            SAVE_RSP => self.read(name(register), self.stack_pointer + value),
            // The value counts from the stack pointer as it was when the frame register was set.
            SAVE_FP => self.reads.push((name(register), Place::Frame(frame, value - frame_offset))),
            // The stack pointer is the frame register less its offset.
            SET_FRAME => self.frame = Some((frame, self.stack_pointer + frame_offset)),
            MACHINE_FRAME => self.machine_frame(value != 0),
            _ => (),
        }
    }

    fn read(&mut self, name: &'static str, above: i64) {
        self.reads.push((name, Place::Stack(above)));
    }

    fn machine_frame(&mut self, error_code: bool) {
        self.interrupted = true;
        if error_code {
            self.stack_pointer += SLOT;
        }
        for word in INTERRUPTED {
            if let Some(name) = word {
                self.read(name, self.stack_pointer);
            }
            self.stack_pointer += SLOT;
        }
    }

    /// All codes are undone: the return address is read here, and the CFA lies right above it. What was read last was saved first, and is
    /// written first.
    fn rules(&self) -> String {
        let cfa = self.stack_pointer + SLOT;
        let (register, above) = self.frame.unwrap_or(("$rsp", 0));
        let mut rules = vec![format!(".cfa: {register} {} +", cfa - above)];
        for (name, place) in self.reads.iter().rev() {
            rules.push(match place {
                Place::Stack(above) => format!("{name}: .cfa {} - ^", cfa - above),
                Place::Frame(register, above) => format!("{name}: {register} {above} + ^"),
            });
        }
        if !self.interrupted {
            rules.push(format!(".ra: .cfa {} - ^", cfa - self.stack_pointer));
        }
        rules.join(" ")
    }
}

fn name(register: u32) -> &'static str {
    PE_X64[register as usize]
}
