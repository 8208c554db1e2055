//! x64 unwind info.

const HEADER: usize = 4;
const MOST_PARTS: usize = 32;

/// The words filled, or the number of the refusal; then the room is as it was. `lead` is begin, end and info address.
#[inline(never)]
pub fn decode(bytes: &[u8], lead: [u32; 3], room: &mut [u32]) -> Result<usize, u32> {
    let (parts, slots) = survey(bytes)?;
    // No part has more operations than slots. Only where that does not decide are the operations counted before a word is written.
    if room.len() < 4 + 3 * (parts + slots) && room.len() < measure(bytes) {
        return Err(9);
    }
    Ok(write(bytes, lead, parts as u32, room))
}

/// The numbers of parts and of slots, by the headers alone.
fn survey(bytes: &[u8]) -> Result<(usize, usize), u32> {
    let (mut parts, mut slots) = (0, 0);
    let mut rest = bytes;
    while let Some(first) = rest.first() {
        if first & 7 != 1 {
            return Err(10);
        }
        let count = usize::from(*rest.get(2).ok_or(11u32)?);
        rest = rest.get(HEADER + 2 * count..).ok_or(11u32)?;
        parts += 1;
        slots += count;
    }
    if parts == 0 || parts > MOST_PARTS {
        return Err(4);
    }
    Ok((parts, slots))
}

/// The words of the body; the bytes have passed the survey.
#[cold]
fn measure(bytes: &[u8]) -> usize {
    let mut words = 4;
    for_each_part(bytes, |frame, slots| {
        words += 3;
        for_each_operation(slots, frame, |_| words += 3);
    });
    words
}

/// The body, into a room that is long enough; the bytes have passed the survey.
fn write(bytes: &[u8], lead: [u32; 3], parts: u32, room: &mut [u32]) -> usize {
    let [begin, end, address] = lead;
    let (head, rest) = room.split_at_mut(4);
    head.copy_from_slice(&[begin, end, address, parts]);
    // Infos and operations have three words each.
    let (triples, _) = rest.as_chunks_mut::<3>();
    let mut at = 0;
    for_each_part(bytes, |frame, slots| {
        let info = at;
        at += 1;
        for_each_operation(slots, frame, |operation| {
            triples[at] = operation;
            at += 1;
        });
        triples[info] = [u32::from(frame & 15), u32::from(frame & 240), (at - info - 1) as u32];
    });
    4 + 3 * at
}

/// The frame byte and the slots of each part.
#[inline(always)]
fn for_each_part(bytes: &[u8], mut each: impl FnMut(u8, &[u8])) {
    let mut rest = bytes;
    while let [_, _, count, frame, behind @ ..] = rest {
        let (slots, next) = behind.split_at(2 * usize::from(*count));
        each(*frame, slots);
        rest = next;
    }
}

/// Kind, register and value of each operation of a part.
#[inline(always)]
fn for_each_operation(slots: &[u8], frame: u8, mut each: impl FnMut([u32; 3])) {
    let save = if frame & 15 == 0 { 3 } else { 4 };
    let mut rest = slots;
    while let [_, code, behind @ ..] = rest {
        let info = u32::from(code >> 4);
        let (operation, next) = match (code & 15, behind) {
            (0, _) => ([1, info, 0], behind),
            (1, [a, b, next @ ..]) if info == 0 => ([2, 0, half(*a, *b) * 8], next),
            (1, [a, b, c, d, next @ ..]) if info == 1 => ([2, 0, u32::from_le_bytes([*a, *b, *c, *d])], next),
            (2, _) => ([2, 0, info * 8 + 8], behind),
            (3, _) => ([5, 0, 0], behind),
            (4, [a, b, next @ ..]) => ([save, info, half(*a, *b) * 8], next),
            (5, [a, b, c, d, next @ ..]) => ([save, info, u32::from_le_bytes([*a, *b, *c, *d])], next),
            (8, [_, _, next @ ..]) => ([7, 0, 0], next),
            (9, [_, _, _, _, next @ ..]) => ([7, 0, 0], next),
            (10, _) if info < 2 => ([6, 0, info], behind),
            _ => return each([8, 0, 0]),
        };
        each(operation);
        rest = next;
    }
}

fn half(low: u8, high: u8) -> u32 {
    u32::from(u16::from_le_bytes([low, high]))
}
