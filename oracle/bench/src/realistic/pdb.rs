//! Frame data of x86 functions as PDBs hold it.

use super::Place;
use model::rng::Rng;

const FPO: u32 = 0;
const FRAME_DATA: u32 = 4;

/// Programs of functions with a frame pointer and without one.
const PROGRAMS: [&str; 6] = [
    "$T0 $ebp = $eip $T0 4 + ^ = $ebp $T0 ^ = $esp $T0 8 + =",
    "$T0 $ebp = $eip $T0 4 + ^ = $ebp $T0 ^ = $esp $T0 8 + = $L $T0 .cbSavedRegs - =",
    "$T0 .raSearch = $eip $T0 ^ = $esp $T0 4 + =",
    "$T0 .raSearch = $eip $T0 ^ = $esp $T0 4 + = $ebx $T0 4 - ^ =",
    "$T0 .raSearch = $eip $T0 ^ = $esp $T0 4 + = $ebp $T0 4 - ^ = $esi $T0 8 - ^ = $edi $T0 12 - ^ =",
    "$T0 $ebp = $eip $T0 4 + ^ = $ebp $T0 ^ = $esp $T0 8 + = $ebx $T0 16 - ^ = $esi $T0 20 - ^ = ",
];

/// Without a program.
pub fn shortest(place: Place) -> Vec<u32> {
    stored(FPO, place, 3, [8, 4, 0], None, &[])
}

pub fn body(rng: &mut Rng, place: Place) -> Vec<u32> {
    let prolog = rng.from_to(1, 15);
    let sizes = [4 * rng.below(6), 4 * rng.below(4), 4 * rng.below(40)];
    let splits: &[u32] = if rng.one_in(40) { &[0x40_0000, 0x10_0000] } else { &[] };
    if rng.below(10) < 3 {
        return stored(FPO, place, prolog, sizes, None, splits);
    }
    let program = if rng.one_in(2) { PROGRAMS[0] } else { rng.pick(&PROGRAMS) };
    stored(FRAME_DATA, place, prolog, sizes, Some(program), splits)
}

/// The code is one range behind the prolog, or is split into ranges moved by these distances.
fn stored(ty: u32, place: Place, prolog: u32, sizes: [u32; 3], program: Option<&str>, moved: &[u32]) -> Vec<u32> {
    let Place { start, size } = place;
    let middle = start + prolog;
    let parts = if moved.is_empty() { &[0][..] } else { moved };
    let each = (size - prolog) / parts.len() as u32;
    let [params, saved, locals] = sizes;
    let base = u32::from(ty == FPO && locals > 80);
    let mut body = vec![ty, start, size, prolog, params, saved, locals, 1, 0, base];
    body.extend([u32::from(program.is_some()), 1, 1, parts.len() as u32]);
    body.push(program.map_or(0, str::len) as u32);
    body.extend([start, middle]);
    for (i, distance) in (0..).zip(parts) {
        let from = middle + i * each + distance;
        body.extend([from, from + each]);
    }
    body.extend(program.unwrap_or("").bytes().map(u32::from));
    body
}
