//! `UNWIND_INFO` of x64 images.

use super::{entry, Undecoded};
use crate::book::x64::{MOST_INFOS, MOST_OPERATIONS};
use crate::book::X64;
use crate::call;

/// So many words hold the body of any x64 function: `STACKLINES_LARGEST_X64_BODY` of the header.
pub const MOST_X64_BODY: usize = 4 + MOST_INFOS * (3 + 3 * MOST_OPERATIONS);

/// Decodes the `UNWIND_INFO` of one function of an x64 PE image, version 1: an entry of a book.
///
/// The function's `RUNTIME_FUNCTION` has the three addresses. The bytes are the parts of its chain, its own first, one right
/// behind the other: of each the four header bytes and the counted slots, without the padding slot and what stands behind it.
/// Flags are not read.
///
/// ```
/// use stacklines::book::Book;
/// use stacklines::{decode_x64, translate, Refusal, NO_LIMIT};
///
/// // push rbx; sub rsp, 32. Version 1, a prolog of 5 bytes, 2 slots, no frame register; then the slots, the last operation first.
/// let bytes = [0x01, 0x05, 0x02, 0x00, 0x05, 0x32, 0x01, 0x30];
/// let function = decode_x64(&bytes, 0x1000, 0x1040, 0x5000)?;
/// let text = translate(&Book::X64(vec![function]).words()?, NO_LIMIT)?;
/// assert_eq!(text.as_str(), "STACK CFI INIT 1000 40 .cfa: $rsp 48 + $rbx: .cfa 16 - ^ .ra: .cfa 8 - ^\n");
///
/// let cut = decode_x64(&bytes[..7], 0x1000, 0x1040, 0x5000).unwrap_err();
/// assert_eq!(cut.refusal(), Refusal::UnwindShort);
/// # Ok::<(), Box<dyn std::error::Error>>(())
/// ```
///
/// # Finding the bytes
///
/// In an image a part that is chained to another, its parent, has flag 4, and behind its slots, whose number is rounded up to
/// an even one, the `RUNTIME_FUNCTION` of that other part. So with an image as it is loaded, `image[rva]` being the byte at an
/// address:
///
/// ```
/// use stacklines::book::Book;
/// use stacklines::{decode_x64, translate, NO_LIMIT};
///
/// /// The parts of the chain that begins with this info.
/// fn parts(image: &[u8], mut info: usize) -> Option<Vec<u8>> {
///     let mut bytes = Vec::new();
///     for _ in 0..32 {
///         let part = image.get(info..)?;
///         let slots = usize::from(*part.get(2)?);
///         bytes.extend(part.get(..4 + 2 * slots)?);
///         if part[0] >> 3 & 4 == 0 {
///             return Some(bytes);
///         }
///         // Begin and end of the other part's function, and the address of its info.
///         let chained = part.get(4 + 2 * slots.next_multiple_of(2)..)?;
///         info = u32::from_le_bytes(chained.get(8..12)?.try_into().ok()?) as usize;
///     }
///     None
/// }
///
/// // At 0 a part with one slot, push rbx, that is chained to its parent at 20h, with push rbp.
/// let mut image = vec![0x21, 0x01, 0x01, 0x00, 0x01, 0x30, 0, 0];
/// image.extend([0x00, 0x10, 0, 0, 0x20, 0x10, 0, 0, 0x20, 0, 0, 0]);
/// image.resize(0x20, 0);
/// image.extend([0x01, 0x01, 0x01, 0x00, 0x01, 0x50, 0, 0]);
///
/// let bytes = parts(&image, 0).unwrap();
/// assert_eq!(bytes, [0x21, 1, 1, 0, 1, 0x30, 0x01, 1, 1, 0, 1, 0x50]);
/// let function = decode_x64(&bytes, 0x1020, 0x1030, 0)?;
/// assert_eq!(function.infos.len(), 2);
///
/// // A translation runs the parent first.
/// let text = translate(&Book::X64(vec![function]).words()?, NO_LIMIT)?;
/// assert_eq!(text.as_str(), "STACK CFI INIT 1020 10 .cfa: $rsp 24 + $rbp: .cfa 16 - ^ $rbx: .cfa 24 - ^ .ra: .cfa 8 - ^\n");
/// # Ok::<(), Box<dyn std::error::Error>>(())
/// ```
///
/// # What comes out
///
/// docs/BOOK.md of the repository has a table of the codes. One that is not in it, or whose slots are not all there, is
/// [`Operation::Undecodable`](crate::book::x64::Operation::Undecodable), the last operation of its part; a translation then
/// skips the entry. Saves of XMM registers are [`Operation::Other`](crate::book::x64::Operation::Other). The entry keeps the
/// layout; one of more words than a book holds is reported where the book's words are made, and numbers out of reach by the
/// translation.
pub fn decode_x64(bytes: &[u8], begin: u32, end: u32, info_address: u32) -> Result<X64, Undecoded> {
    let called = call::decode_x64(bytes, [begin, end, info_address], room(bytes.len()));
    entry(called, "there is no part, or more than 32")
}

/// Words that hold the body of so many bytes: the body itself has four, a slot of two bytes gives at most three, and the four
/// bytes of a header give three.
fn room(bytes: usize) -> usize {
    (4 + bytes / 2 * 3).min(MOST_X64_BODY)
}
