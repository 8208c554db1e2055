//! The calls into the archive. Its header is `bindings/c/stacklines.h`.

use crate::Text;

/// The bytes of work area that the call needs.
const WORK: usize = 8192;

extern "C" {
    fn stacklines_translate(
        book: *const u32,
        book_len: usize,
        limit: u32,
        work: *mut u8,
        work_len: usize,
        text: *mut u8,
        text_len: usize,
        counts: *mut u64,
        counts_len: usize,
    ) -> u32;

    fn stacklines_decode_x64(
        bytes: *const u8,
        bytes_len: usize,
        begin: u32,
        end: u32,
        info_address: u32,
        body: *mut u32,
        body_len: usize,
        count: *mut u64,
        count_len: usize,
    ) -> u32;

    fn stacklines_decode_arm64(
        bytes: *const u8,
        bytes_len: usize,
        address: u32,
        size: u32,
        body: *mut u32,
        body_len: usize,
        count: *mut u64,
        count_len: usize,
    ) -> u32;
}

/// What a call gives: its number, and the buffer with the lines of the entries done.
pub(crate) struct Called {
    pub number: u32,
    entries: usize,
    length: usize,
    text: Vec<u8>,
}

impl Called {
    /// The lines alone.
    pub fn done(mut self) -> Text {
        self.text.truncate(self.length);
        self.text.shrink_to_fit();
        Text::new(self.text, self.entries)
    }
}

/// Translates into a buffer of `room` bytes.
pub(crate) fn translate(book: &[u32], limit: u32, room: usize) -> Called {
    let mut work = [0; WORK];
    let mut text = vec![0; room];
    let mut counts = [0; 2];
    // SAFETY: each pointer leads to as many elements as the length behind it says, and is not null where that is 0. The
    // three that are written to are borrowed here alone, so they overlap neither each other nor the book.
    let number = unsafe {
        stacklines_translate(
            book.as_ptr(),
            book.len(),
            limit,
            work.as_mut_ptr(),
            work.len(),
            text.as_mut_ptr(),
            text.len(),
            counts.as_mut_ptr(),
            counts.len(),
        )
    };
    // The counts are those of entries and of bytes in the buffer, so they fit.
    let [entries, length] = counts.map(|count| count as usize);
    Called { number, entries, length, text }
}

/// Decodes into a body of at most `room` words: the number, and the words filled. The addresses are begin, end and the info's.
pub(crate) fn decode_x64(bytes: &[u8], addresses: [u32; 3], room: usize) -> (u32, Vec<u32>) {
    let [begin, end, info_address] = addresses;
    filled(room, |body, count| {
        // SAFETY: as above: the pointers lead to as many elements as their lengths say, and body and count are borrowed here alone.
        unsafe {
            stacklines_decode_x64(
                bytes.as_ptr(),
                bytes.len(),
                begin,
                end,
                info_address,
                body.as_mut_ptr(),
                body.len(),
                count,
                1,
            )
        }
    })
}

/// The same for ARM64 codes, with the function's address and size.
pub(crate) fn decode_arm64(bytes: &[u8], [address, size]: [u32; 2], room: usize) -> (u32, Vec<u32>) {
    filled(room, |body, count| {
        // SAFETY: as above.
        unsafe {
            stacklines_decode_arm64(bytes.as_ptr(), bytes.len(), address, size, body.as_mut_ptr(), body.len(), count, 1)
        }
    })
}

/// What a call gives that fills a body of at most `room` words and counts them.
fn filled(room: usize, call: impl FnOnce(&mut [u32], &mut u64) -> u32) -> (u32, Vec<u32>) {
    let mut body = vec![0; room];
    let mut count = 0;
    let number = call(&mut body, &mut count);
    body.truncate(count as usize);
    (number, body)
}
