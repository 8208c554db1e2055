//! Prints the STACK lines of a book from standard input, as the program `stacklines` does: without a chain limit, and with
//! a line `refused N` at the end of a refused one.

use stacklines::{translate, NO_LIMIT};
use std::io::{self, Read};

fn main() -> io::Result<()> {
    let mut bytes = Vec::new();
    io::stdin().read_to_end(&mut bytes)?;
    let whole = bytes.chunks_exact(4);
    if !whole.remainder().is_empty() {
        println!("refused 3");
        return Ok(());
    }
    let words: Vec<u32> = whole.map(|word| u32::from_le_bytes(word.try_into().expect("four bytes"))).collect();
    match translate(&words, NO_LIMIT) {
        Ok(text) => print!("{text}"),
        Err(refused) => println!("{}refused {}", refused.done(), refused.number()),
    }
    Ok(())
}
