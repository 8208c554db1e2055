//! ARM64 unwind codes.

const MOST_OPERATIONS: usize = 1024;

/// Bytes of a code, by its first byte.
const LENGTHS: [u8; 256] = lengths();

const fn lengths() -> [u8; 256] {
    let mut lengths = [1; 256];
    let mut first = 0xc0;
    while first < 0xe0 {
        lengths[first] = 2;
        first += 1;
    }
    lengths[0xe0] = 4;
    lengths[0xe2] = 2;
    lengths[0xe7] = 3;
    lengths[0xf8] = 2;
    lengths[0xf9] = 3;
    lengths[0xfa] = 4;
    lengths[0xfb] = 5;
    lengths
}

/// The words filled, or the number of the refusal; then the room is as it was. `lead` is address and size.
#[inline(never)]
pub fn decode(bytes: &[u8], lead: [u32; 2], room: &mut [u32]) -> Result<usize, u32> {
    let count = survey(bytes)?;
    if count > MOST_OPERATIONS {
        return Err(4);
    }
    let body = room.get_mut(..3 + 4 * count).ok_or(9u32)?;
    write(bytes, lead, count as u32, body);
    Ok(body.len())
}

/// The number of operations.
fn survey(bytes: &[u8]) -> Result<usize, u32> {
    let mut count = 0;
    let mut rest = bytes;
    while let Some(first) = rest.first() {
        let (code, behind) = rest.split_at_checked(usize::from(LENGTHS[usize::from(*first)])).ok_or(12u32)?;
        count += 1;
        if ends(code) {
            break;
        }
        rest = behind;
    }
    Ok(count)
}

#[inline(always)]
fn ends(code: &[u8]) -> bool {
    match code {
        [0..=0xe3 | 0xe6 | 0xfc, ..] => false,
        [0xe7, second, third] => second & 0x80 != 0 || third >> 6 == 3 && second & 0x1c == 0x10,
        _ => true,
    }
}

/// The body, into words for just so many operations; the bytes have passed the survey.
fn write(bytes: &[u8], lead: [u32; 2], count: u32, body: &mut [u32]) {
    let (head, operations) = body.split_at_mut(3);
    head.copy_from_slice(&[lead[0], lead[1], count]);
    let mut rest = bytes;
    for place in operations.as_chunks_mut::<4>().0 {
        let (code, behind) = rest.split_at(usize::from(LENGTHS[usize::from(rest[0])]));
        *place = operation(code);
        rest = behind;
    }
}

/// Kind, letter, register and value of a code.
#[inline(always)]
fn operation(code: &[u8]) -> [u32; 4] {
    let first = u32::from(code[0]);
    match (first, code) {
        (0..=0x1f, _) => [1, 0, 0, first * 16],
        (0x20..=0x3f, _) => [5, 0, 19, (first & 31) * 8],
        (0x40..=0x7f, _) => [4, 0, 29, (first & 63) * 8],
        (0x80..=0xbf, _) => [5, 0, 29, (first & 63) * 8 + 8],
        (0xc0..=0xdf, [_, b]) => of_two(first << 8 | u32::from(*b)),
        (0xe0, [_, a, b, c]) => [1, 0, 0, u32::from_be_bytes([0, *a, *b, *c]) * 16],
        (0xe1..=0xe3 | 0xfc, _) => [8, 0, 0, 0],
        (0xe4 | 0xe5, _) => [9, 0, 0, 0],
        (0xe6, _) => [7, 0, 0, 0],
        (0xe7, [_, a, b]) => any_register(u32::from(*a), u32::from(*b)),
        _ => [10, 0, 0, 0],
    }
}

/// A code of two bytes, the first of them high.
#[inline(always)]
fn of_two(code: u32) -> [u32; 4] {
    // Six bits of value below the register, or five.
    let (place, register) = (code & 63, code >> 6);
    let (short_place, short_register) = (code & 31, code >> 5);
    match code >> 8 {
        0xc0..=0xc7 => [1, 0, 0, (code & 0x7ff) * 16],
        0xc8..=0xcb => [4, 0, 19 + (register & 15), place * 8],
        0xcc..=0xcf => [5, 0, 19 + (register & 15), place * 8 + 8],
        0xd0..=0xd3 => [2, 0, 19 + (register & 15), place * 8],
        0xd4 | 0xd5 => [3, 0, 19 + (short_register & 15), short_place * 8 + 8],
        0xd6 | 0xd7 => [6, 0, 19 + 2 * (register & 7), place * 8],
        0xd8 | 0xd9 => [4, 1, 8 + (register & 7), place * 8],
        0xda | 0xdb => [5, 1, 8 + (register & 7), place * 8 + 8],
        0xdc | 0xdd => [2, 1, 8 + (register & 7), place * 8],
        0xde => [3, 1, 8 + (short_register & 7), short_place * 8 + 8],
        _ => [8, 0, 0, 0],
    }
}

/// What stands behind E7.
fn any_register(second: u32, third: u32) -> [u32; 4] {
    let (pre, pair, letter) = (second >> 5 & 1, second >> 6 & 1, third >> 6);
    if second >= 0x80 || letter == 3 && second & 0x1c == 0x10 {
        return [10, 0, 0, 0];
    }
    if letter == 3 {
        return [8, 0, 0, 0];
    }
    let unit = if pre == 1 || pair == 1 || letter == 2 { 16 } else { 8 };
    [2 + 2 * pair + pre, letter, second & 31, ((third & 63) + pre) * unit]
}
