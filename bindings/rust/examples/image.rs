//! Prints the STACK lines of an x64 or ARM64 PE file from standard input: finds the unwind bytes of each function, decodes them,
//! and translates them as a book of its own. What is left out is said on standard error.

use stacklines::book::{Arm64, Book, X64};
use stacklines::{decode_arm64, decode_x64, translate, NO_LIMIT};
use std::error::Error;
use std::io::{self, Read};

#[derive(Clone, Copy)]
pub enum Machine {
    X64,
    Arm64,
}

impl Machine {
    /// The bytes of a function in the list of functions.
    pub fn entry(self) -> usize {
        match self {
            Machine::X64 => 12,
            Machine::Arm64 => 8,
        }
    }
}

/// A file, and its sections: the address of each, its place in the file, and its length there.
pub struct Image<'a> {
    file: &'a [u8],
    pub machine: Machine,
    sections: Vec<[usize; 3]>,
}

/// A number of so many bytes, the lowest first.
fn number(bytes: &[u8], at: usize, length: usize) -> Option<usize> {
    let bytes = bytes.get(at..)?.get(..length)?;
    Some(bytes.iter().rev().fold(0, |sum, &byte| sum << 8 | usize::from(byte)))
}

impl<'a> Image<'a> {
    /// An image for x64 or ARM64, and its list of functions, three words each or two.
    pub fn open(file: &'a [u8]) -> Option<(Image<'a>, &'a [u8])> {
        let header = number(file, 0x3c, 4)?;
        let optional = header + 24;
        let machine = match file.get(header..)?.get(..6)? {
            b"PE\0\0\x64\x86" => Machine::X64,
            b"PE\0\0\x64\xaa" => Machine::Arm64,
            _ => return None,
        };
        let has_64_bits = number(file, optional, 2)? == 0x20b;
        let first_section = optional + number(file, header + 20, 2)?;
        let section = |i| {
            let field = |at| number(file, first_section + 40 * i + at, 4);
            Some([field(12)?, field(20)?, field(16)?])
        };
        let sections: Option<Vec<[usize; 3]>> = (0..number(file, header + 6, 2)?).map(section).collect();
        let image = Image { file, machine, sections: sections.filter(|_| has_64_bits)? };
        // The fourth data directory, .pdata as a rule.
        let (address, size) = (number(file, optional + 136, 4)?, number(file, optional + 140, 4)?);
        let functions = if size == 0 { &[] } else { image.at(address)?.get(..size)? };
        Some((image, functions))
    }

    /// The bytes of the section from this address on.
    fn at(&self, address: usize) -> Option<&'a [u8]> {
        let holds = |section: &&[usize; 3]| (section[0]..section[0] + section[2]).contains(&address);
        let [start, place, length] = *self.sections.iter().find(holds)?;
        self.file.get(place..)?.get(address - start..length)
    }

    /// The parts of the chain that begins with the info at this address.
    pub fn parts(&self, mut info: usize) -> Option<Vec<u8>> {
        let mut bytes = Vec::new();
        for _ in 0..32 {
            let part = self.at(info)?;
            let slots = number(part, 2, 1)?;
            bytes.extend(part.get(..4 + 2 * slots)?);
            if part[0] >> 3 & 4 == 0 {
                return Some(bytes);
            }
            info = number(part, 4 + 2 * slots.next_multiple_of(2) + 8, 4)?;
        }
        None
    }

    /// The size and the codes of the ARM64 function whose record is at this address.
    pub fn codes(&self, record: usize) -> Option<(usize, &'a [u8])> {
        let bytes = self.at(record)?;
        let header = number(bytes, 0, 4).filter(|header| header >> 18 & 3 == 0)?;
        let (mut epilogs, mut words, mut codes) = (header >> 22 & 0x1f, header >> 27, 4);
        if epilogs == 0 && words == 0 {
            (epilogs, words, codes) = (number(bytes, 4, 2)?, number(bytes, 6, 1)?, 8);
        }
        if header >> 21 & 1 == 0 {
            codes += 4 * epilogs;
        }
        Some((4 * (header & 0x3ffff), bytes.get(codes..)?.get(..4 * words)?))
    }
}

fn x64(image: &Image, function: &[u8]) -> Result<X64, Box<dyn Error>> {
    let [begin, end, info] = [0, 4, 8].map(|at| number(function, at, 4).unwrap_or(0));
    let bytes = image.parts(info).ok_or("its unwind info lies outside of the file, or its chain does not end")?;
    Ok(decode_x64(&bytes, begin as u32, end as u32, info as u32)?)
}

fn arm64(image: &Image, function: &[u8]) -> Result<Arm64, Box<dyn Error>> {
    let [address, record] = [0, 4].map(|at| number(function, at, 4).unwrap_or(0));
    if record & 3 != 0 {
        return Err("its unwind data are packed".into());
    }
    let (size, codes) = image.codes(record).ok_or("its record lies outside of the file, or its version is not 0")?;
    Ok(decode_arm64(codes, address as u32, size as u32)?)
}

/// The lines of one function, where it is not skipped.
pub fn lines(image: &Image, function: &[u8]) -> Result<String, Box<dyn Error>> {
    let book = match image.machine {
        Machine::X64 => Book::X64(vec![x64(image, function)?]),
        Machine::Arm64 => Book::Arm64(vec![arm64(image, function)?]),
    };
    Ok(translate(&book.words()?, NO_LIMIT)?.into_string())
}

fn main() -> Result<(), Box<dyn Error>> {
    let mut file = Vec::new();
    io::stdin().read_to_end(&mut file)?;
    let (image, functions) = Image::open(&file).ok_or("this is no PE file for x64 or ARM64")?;
    // A list may have zeros at its end.
    let functions = functions.chunks_exact(image.machine.entry()).filter(|entry| entry.iter().any(|&byte| byte != 0));
    for function in functions {
        match lines(&image, function) {
            Ok(lines) => print!("{lines}"),
            Err(why) => eprintln!("{:x}: {why}", number(function, 0, 4).unwrap_or(0)),
        }
    }
    Ok(())
}
