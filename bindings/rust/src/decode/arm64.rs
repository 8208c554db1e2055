//! Unwind codes of ARM64 images.

use super::{entry, Undecoded};
use crate::book::arm64::MOST_OPERATIONS;
use crate::book::Arm64;
use crate::call;

/// So many words hold the body of any ARM64 function: `STACKLINES_LARGEST_ARM64_BODY` of the header.
pub const MOST_ARM64_BODY: usize = 3 + 4 * MOST_OPERATIONS;

/// Decodes the unwind codes of one function of an ARM64 PE image: an entry of a book.
///
/// The bytes are the code bytes of the function's `.xdata` record. They may be given whole: what stands behind the first end,
/// as codes of epilogs and padding, is not read.
///
/// ```
/// use stacklines::book::Book;
/// use stacklines::{decode_arm64, translate, Refusal, NO_LIMIT};
///
/// // stp x29, x30, [sp, #-32]!; mov x29, sp; stp x19, x20, [sp, #16]. The last code first: save_regp, set_fp, save_fplr_x, end.
/// let codes = [0xc8, 0x02, 0xe1, 0x83, 0xe4];
/// let function = decode_arm64(&codes, 0x1000, 0x40)?;
/// let text = translate(&Book::Arm64(vec![function]).words()?, NO_LIMIT)?;
/// let lines = "STACK CFI INIT 1000 40 .cfa: .sp 32 + .x29: .cfa -32 + ^ .x30: .cfa -24 + ^ .ra: .cfa -24 + ^
/// STACK CFI      1004 .cfa: .sp 32 +
/// STACK CFI      1008 .x19: .cfa -16 + ^ .x20: .cfa -8 + ^
/// ";
/// assert_eq!(text.as_str(), lines);
///
/// let cut = decode_arm64(&codes[..1], 0x1000, 0x40).unwrap_err();
/// assert_eq!(cut.refusal(), Refusal::CodeShort);
/// # Ok::<(), Box<dyn std::error::Error>>(())
/// ```
///
/// # Finding the bytes
///
/// An entry of `.pdata` has two words: the function's address, and that of its `.xdata` record where the low two bits are 0.
/// With other low bits the second word is the unwind data themselves, packed; such a function has no record and no codes, and
/// is not decoded here. A record begins with a word of these fields:
///
/// | bits | what stands there |
/// |---|---|
/// | 0 to 17 | a fourth of the function's size |
/// | 18, 19 | version, 0 |
/// | 20 | 1 where a handler stands behind the codes |
/// | 21 | 1 where there is one epilog, and no word for it |
/// | 22 to 26 | the number of epilogs; where bit 21 is 1, the index of the epilog's first code |
/// | 27 to 31 | the number of words with codes |
///
/// Where bits 22 to 31 are 0, a second word has the last two numbers, in bits 0 to 15 and 16 to 23. Then comes a word for each
/// epilog where bit 21 is 0, then the codes. So with an image as it is loaded, `image[rva]` being the byte at an address:
///
/// ```
/// use stacklines::decode_arm64;
///
/// /// Address, size and codes of the function whose entry of `.pdata` stands here, where it has a record.
/// fn function(image: &[u8], entry: usize) -> Option<(u32, u32, &[u8])> {
///     let word = |at: usize| Some(u32::from_le_bytes(image.get(at..)?.get(..4)?.try_into().ok()?) as usize);
///     let (address, record) = (word(entry)?, word(entry + 4)?);
///     let header = word(record).filter(|header| record & 3 == 0 && header >> 18 & 3 == 0)?;
///     let (mut epilogs, mut words, mut codes) = (header >> 22 & 0x1f, header >> 27, record + 4);
///     if epilogs == 0 && words == 0 {
///         (epilogs, words, codes) = (word(codes)? & 0xffff, word(codes)? >> 16 & 0xff, codes + 4);
///     }
///     if header >> 21 & 1 == 0 {
///         codes += 4 * epilogs;
///     }
///     Some((address as u32, 4 * (header as u32 & 0x3ffff), image.get(codes..)?.get(..4 * words)?))
/// }
///
/// // At 0 an entry with its record at 10h: 16 instructions, a word for one epilog, which begins at instruction 13 and code 5, and
/// // three words of codes: the prolog's, the epilog's, padding.
/// let mut image = vec![0x00, 0x10, 0, 0, 0x10, 0, 0, 0];
/// image.resize(0x10, 0);
/// image.extend([0x10, 0, 0x40, 0x18, 0x0d, 0, 0x40, 0x01]);
/// image.extend([0xc8, 0x02, 0xe1, 0x83, 0xe4, 0xc8, 0x02, 0x83, 0xe4, 0xe3, 0xe3, 0xe3]);
///
/// let (address, size, codes) = function(&image, 0).unwrap();
/// assert_eq!((address, size, codes.len()), (0x1000, 0x40, 12));
/// assert_eq!(decode_arm64(codes, address, size), decode_arm64(&codes[..5], 0x1000, 0x40));
/// ```
///
/// # What comes out
///
/// docs/BOOK.md of the repository has a table of the codes. An end is [`Operation::End`](crate::book::arm64::Operation::End). A
/// code that is reserved or of a custom stack is [`Operation::Undecodable`](crate::book::arm64::Operation::Undecodable), and a
/// translation then skips the entry. Both are the last operation; without them the bytes' end ends the list. Codes that a book
/// has no operation for, as setting the frame pointer, are [`Operation::Other`](crate::book::arm64::Operation::Other). The entry
/// keeps the layout; numbers out of reach are reported by the translation.
pub fn decode_arm64(bytes: &[u8], address: u32, size: u32) -> Result<Arm64, Undecoded> {
    let called = call::decode_arm64(bytes, [address, size], room(bytes.len()));
    entry(called, "there are more than 1,024 operations")
}

/// Words that hold the body of so many bytes: the body itself has three, and a code of at least a byte gives four.
fn room(bytes: usize) -> usize {
    3 + 4 * bytes.min(MOST_OPERATIONS)
}
