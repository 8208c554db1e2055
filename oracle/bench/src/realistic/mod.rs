//! Books as compilers fill them: functions one behind the other, until the book is full. Each book is one object file.

mod arm64;
mod dwarf;
mod pdb;
mod x64;

use model::book::{assemble, MOST_WORDS};
use model::rng::Rng;
use model::{ARM64, DWARF, X64};

const MOST_ENTRIES: usize = 1024;

/// The place of a function in its image.
#[derive(Clone, Copy)]
pub struct Place {
    pub start: u32,
    pub size: u32,
}

/// Functions in order of address, each at a multiple of 16.
struct Layout {
    next: u32,
}

impl Layout {
    fn place(&mut self, rng: &mut Rng) -> Place {
        let size = 4 * if rng.one_in(8) { rng.from_to(50, 500) } else { rng.from_to(12, 75) };
        let start = self.next;
        self.next = (start + size).next_multiple_of(16);
        Place { start, size }
    }
}

/// A full book; `turn` chooses among the processors that a kind has.
pub fn book(kind: u32, turn: usize) -> Vec<u32> {
    let mut rng = Rng::new(u64::from(kind) * 1000 + turn as u64);
    let machine = dwarf::MACHINES[[0, 0, 1, 2][turn % 4]];
    fill(kind, MOST_ENTRIES, |place| match kind {
        X64 => x64::body(&mut rng, place),
        ARM64 => arm64::body(&mut rng, place),
        DWARF => dwarf::body(&mut rng, place, machine),
        _ => pdb::body(&mut rng, place),
    })
}

/// A book of at most `count` entries, all made like the shortest function of the kind.
pub fn uniform_book(kind: u32, count: usize) -> Vec<u32> {
    fill(kind, count, |place| match kind {
        X64 => x64::shortest(place),
        ARM64 => arm64::shortest(place),
        DWARF => dwarf::shortest(place),
        _ => pdb::shortest(place),
    })
}

/// Bodies until the next one does not fit.
fn fill(kind: u32, most: usize, mut body: impl FnMut(Place) -> Vec<u32>) -> Vec<u32> {
    let mut layout = Layout { next: 0x1000 };
    let mut rng = Rng::new(7);
    let mut bodies: Vec<Vec<u32>> = Vec::new();
    let mut words = 2;
    while bodies.len() < most {
        let body = body(layout.place(&mut rng));
        words += 2 + body.len();
        if words > MOST_WORDS {
            break;
        }
        bodies.push(body);
    }
    assemble(kind, &bodies)
}
