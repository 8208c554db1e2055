//! DWARF rows as GCC and clang write them. As in the rows that gimli gives, each lists every rule that holds.

use super::Place;
use model::rng::Rng;

/// What the CIE and the prologues of a processor have in common.
#[derive(Clone, Copy)]
pub struct Machine {
    family: u32,
    load_address: u32,
    return_register: u32,
    stack: u32,
    frame: u32,
    word: u32,
    /// Registers that a function saves, in the order of their pushes.
    saved: &'static [u32],
}

/// amd64, arm64, x86.
pub const MACHINES: [Machine; 3] = [
    Machine {
        family: 2,
        load_address: 0x40_0000,
        return_register: 16,
        stack: 7,
        frame: 6,
        word: 8,
        saved: &[15, 14, 13, 12, 6, 3],
    },
    Machine {
        family: 4,
        load_address: 0,
        return_register: 30,
        stack: 31,
        frame: 29,
        word: 8,
        saved: &[19, 20, 21, 22, 23, 24, 25, 26],
    },
    Machine {
        family: 1,
        load_address: 0x804_8000,
        return_register: 8,
        stack: 4,
        frame: 5,
        word: 4,
        saved: &[5, 7, 6, 3],
    },
];

/// The CFA is this register plus this offset.
type Cfa = (u32, u32);

/// A register lies so many bytes below the CFA.
type Below = (u32, u32);

/// The rows of one function as they come about.
struct Rows {
    machine: Machine,
    place: Place,
    at: u32,
    rows: Vec<(u32, Cfa, Vec<Below>)>,
}

impl Rows {
    /// At entry the return address is on the stack, or in its register.
    fn new(machine: Machine, place: Place) -> Self {
        let on_stack = machine.family != 4;
        let cfa = (machine.stack, if on_stack { machine.word } else { 0 });
        let rules = if on_stack { vec![(machine.return_register, machine.word)] } else { vec![] };
        Rows { machine, place, at: 0, rows: vec![(0, cfa, rules)] }
    }

    /// Goes on to the epilogue, so many bytes before the end.
    fn epilogue(&mut self, bytes: u32) {
        self.at = self.place.size - bytes;
    }

    /// A row some bytes further on: the CFA, and rules beside those that hold.
    fn row(&mut self, bytes: u32, cfa: Cfa, more: &[Below]) {
        self.at += bytes;
        let mut rules = self.rows.last().map_or(vec![], |row| row.2.clone());
        rules.extend(more);
        self.rows.push((self.at, cfa, rules));
    }

    fn body(&self) -> Vec<u32> {
        let base = self.machine.load_address + self.place.start;
        let load = self.machine.load_address;
        let mut body = vec![self.machine.family, base, 0, load, 0, self.machine.return_register, self.rows.len() as u32];
        for (i, (at, cfa, rules)) in self.rows.iter().enumerate() {
            let end = self.rows.get(i + 1).map_or(self.place.size, |next| next.0);
            body.extend([base + at, 0, base + end, 0, 0, cfa.0, cfa.1, 0, rules.len() as u32]);
            for (register, below) in rules {
                let value = -i64::from(*below);
                body.extend([*register, 1, value as u32, (value >> 32) as u32]);
            }
        }
        body
    }
}

/// One row: a leaf.
pub fn shortest(place: Place) -> Vec<u32> {
    Rows::new(MACHINES[0], place).body()
}

pub fn body(rng: &mut Rng, place: Place, machine: Machine) -> Vec<u32> {
    let mut rows = Rows::new(machine, place);
    match rng.below(20) {
        0..=3 => {}
        4..=7 => allocating(&mut rows, rng),
        _ if machine.family == 4 => stored_pairs(&mut rows, rng),
        8..=13 => frame_pointer(&mut rows, rng),
        _ => pushing(&mut rows, rng),
    }
    rows.body()
}

/// sub rsp, 8 .. add rsp, 8
fn allocating(rows: &mut Rows, rng: &mut Rng) {
    let (stack, word) = (rows.machine.stack, rows.rows[0].1 .1);
    rows.row(4, (stack, word + 16 * rng.from_to(1, 8)), &[]);
    rows.epilogue(if rows.machine.family == 4 { 4 } else { 1 });
    rows.row(0, (stack, word), &[]);
}

/// push rbp; mov rbp, rsp; perhaps pushes; leave
fn frame_pointer(rows: &mut Rows, rng: &mut Rng) {
    let Machine { stack, frame, word, saved, .. } = rows.machine;
    rows.row(1, (stack, 2 * word), &[(frame, 2 * word)]);
    rows.row(3, (frame, 2 * word), &[]);
    let pushed = saved.iter().filter(|r| **r != frame).take(rng.index(saved.len()));
    let rules: Vec<Below> = (3..).zip(pushed).map(|(i, r)| (*r, i * word)).collect();
    if !rules.is_empty() {
        rows.row(2 * rules.len() as u32, (frame, 2 * word), &rules);
    }
    rows.epilogue(1);
    rows.row(0, (stack, word), &[]);
}

/// A row for each push and for each pop, the frame pointer one of the pushed registers.
fn pushing(rows: &mut Rows, rng: &mut Rng) {
    let Machine { stack, word, saved, .. } = rows.machine;
    let pushes = rng.from_to(3, saved.len() as u32);
    let mut offset = word;
    for register in &saved[saved.len() - pushes as usize..] {
        offset += word;
        rows.row(2, (stack, offset), &[(*register, offset)]);
    }
    let room = 16 * rng.below(12);
    if room > 0 {
        rows.row(4, (stack, offset + room), &[]);
        rows.epilogue(2 * pushes + 1);
        rows.row(0, (stack, offset), &[]);
    }
    rows.epilogue(2 * pushes + 1);
    for _ in 0..pushes {
        offset -= word;
        rows.row(2, (stack, offset), &[]);
    }
}

/// stp x29, x30, [sp, -size]!; mov x29, sp; stp x19, x20 ..; ldp; ret
fn stored_pairs(rows: &mut Rows, rng: &mut Rng) {
    let Machine { stack, frame, return_register, saved, .. } = rows.machine;
    let pairs = rng.below(saved.len() as u32 / 2 + 1);
    let size = 16 * (1 + pairs + rng.below(6));
    rows.row(4, (stack, size), &[(frame, size), (return_register, size - 8)]);
    for i in 0..pairs {
        let at = 2 * i as usize;
        let rules = [(saved[at], size - 16 - 16 * i), (saved[at + 1], size - 24 - 16 * i)];
        rows.row(4, (stack, size), &rules);
    }
    rows.epilogue(4);
    rows.row(0, (stack, 0), &[]);
    // The registers are restored: no rule holds any more.
    if let Some(last) = rows.rows.last_mut() {
        last.2.clear();
    }
}
