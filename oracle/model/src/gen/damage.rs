//! Damaged copies of books, and words that never were one.

use crate::rng::Rng;

/// Changes one thing of a book.
pub fn damage(rng: &mut Rng, book: &mut Vec<u32>) {
    match rng.below(10) {
        0 => book[0] = rng.pick(&[0, 1, 2, 3, 4, 5, 6, 0xffff_ffff]),
        1 => book[1] = wrong(rng, book[1]),
        2 | 3 if book.len() > 3 => {
            let contents = 2 * (book[1] as usize).max(1);
            let at = 2 + rng.index(contents);
            let at = at.min(book.len() - 1);
            book[at] = wrong(rng, book[at]);
        }
        4 => {
            let left = rng.index(book.len() + 1);
            book.truncate(left);
        }
        5 => {
            book.pop();
        }
        6 => {
            for _ in 0..=rng.below(3) {
                book.push(rng.sized_word());
            }
        }
        7 => shift_contents(rng, book),
        _ => {
            let at = rng.index(book.len());
            book[at] = wrong(rng, book[at]);
        }
    }
}

/// Moves a word from one body to its neighbour, so that the contents rules still hold.
fn shift_contents(rng: &mut Rng, book: &mut [u32]) {
    let count = book.get(1).copied().unwrap_or(0) as usize;
    if count < 2 || book.len() < 2 + 2 * count {
        return;
    }
    let i = rng.index(count - 1);
    let at = 2 + 2 * i;
    if book[at + 1] == 0 {
        return;
    }
    book[at + 1] -= 1;
    book[at + 2] = book[at + 2].wrapping_sub(1);
    book[at + 3] = book[at + 3].wrapping_add(1);
}

/// A word that is not as it was.
fn wrong(rng: &mut Rng, word: u32) -> u32 {
    match rng.below(5) {
        0 => word.wrapping_add(1),
        1 => word.wrapping_sub(1),
        2 => word ^ 1 << rng.below(32),
        3 => rng.word(),
        _ => rng.sized_word(),
    }
}

/// Changes one word of a body, or its length; the contents are made afterwards and hold.
pub fn damage_body(rng: &mut Rng, body: &mut Vec<u32>) {
    match rng.below(6) {
        0 => {
            body.pop();
        }
        1 => body.push(rng.below(20)),
        2 => {
            let left = rng.index(body.len() + 1);
            body.truncate(left);
        }
        _ if body.is_empty() => {}
        3 => {
            let at = rng.index(body.len().min(20));
            body[at] = wrong(rng, body[at]);
        }
        _ => {
            let at = rng.index(body.len());
            body[at] = wrong(rng, body[at]);
        }
    }
}

pub fn plain_words(rng: &mut Rng) -> Vec<u32> {
    let count = rng.below(40);
    let small = rng.one_in(2);
    (0..count)
        .map(|_| if small { rng.below(12) } else { rng.sized_word() })
        .collect()
}
