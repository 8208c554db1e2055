//! The example `image`, on PE files that are made here.

mod common;

#[allow(dead_code)]
#[path = "../examples/image.rs"]
mod image;

use common::FIRST_LINE;
use image::{lines, Image};

/// Where the headers, the section and its bytes lie in the file.
const HEADER: usize = 0x80;
const OPTIONAL: usize = HEADER + 24;
const PLACE: usize = 0x200;

/// The section's address, and that of the first info, which has a handler. The second one is chained to it.
const SECTION: u32 = 0x3000;
const FIRST_INFO: u32 = SECTION + 0x40;
const SECOND_INFO: u32 = SECTION + 0x60;

fn put(file: &mut [u8], at: usize, bytes: &[u8]) {
    file[at..at + bytes.len()].copy_from_slice(bytes);
}

fn words(words: &[u32]) -> Vec<u8> {
    words.iter().flat_map(|word| word.to_le_bytes()).collect()
}

/// A file of one section, which begins with a list of functions of so many bytes.
fn file_for(machine: [u8; 2], list: u32) -> Vec<u8> {
    let mut file = vec![0; PLACE + 0x80];
    put(&mut file, 0x3c, &words(&[HEADER as u32]));
    put(&mut file, HEADER, &[b"PE\0\0", &machine[..], &[1, 0]].concat());
    put(&mut file, HEADER + 20, &[240, 0]);
    put(&mut file, OPTIONAL, &[0x0b, 0x02]);
    put(&mut file, OPTIONAL + 136, &words(&[SECTION, list]));
    put(&mut file, OPTIONAL + 240 + 8, &words(&[0x100, SECTION, 0x80, PLACE as u32]));
    file
}

/// Three functions for x64. The third one's info lies outside.
fn file() -> Vec<u8> {
    let mut file = file_for([0x64, 0x86], 36);
    let functions = [[0x1000, 0x1040, FIRST_INFO], [0x1040, 0x1050, SECOND_INFO], [0x1050, 0x1060, SECTION + 0x80]];
    put(&mut file, PLACE, &words(functions.as_flattened()));
    put(&mut file, PLACE + 0x40, &[0x19, 5, 2, 0, 5, 0x32, 1, 0x30, 0xff, 0xff, 0, 0]);
    put(&mut file, PLACE + 0x60, &[0x21, 1, 1, 0, 1, 0x70, 0, 0]);
    put(&mut file, PLACE + 0x68, &words(&functions[0]));
    file
}

#[test]
fn lines_of_functions() {
    let file = file();
    let (image, functions) = Image::open(&file).unwrap();
    let of = |i: usize| lines(&image, &functions[12 * i..12 * i + 12]);
    assert_eq!(functions.len(), 36);
    assert_eq!(of(0).unwrap(), FIRST_LINE);
    let chained = "STACK CFI INIT 1040 10 .cfa: $rsp 56 + $rbx: .cfa 16 - ^ $rdi: .cfa 56 - ^ .ra: .cfa 8 - ^\n";
    assert_eq!(of(1).unwrap(), chained);
    assert!(of(2).is_err());
}

#[test]
fn parts_of_a_chain() {
    let mut file = file();
    let first = [0x19, 5, 2, 0, 5, 0x32, 1, 0x30];
    let chained = [&[0x21, 1, 1, 0, 1, 0x70][..], &first].concat();
    let parts = |file: &[u8], info: u32| Image::open(file).unwrap().0.parts(info as usize);
    assert_eq!(parts(&file, FIRST_INFO), Some(first.to_vec()));
    assert_eq!(parts(&file, SECOND_INFO), Some(chained));
    // A chain that leads to itself.
    put(&mut file, PLACE + 0x70, &words(&[SECOND_INFO]));
    assert_eq!(parts(&file, SECOND_INFO), None);
}

/// ARM64 functions by their records: with a word for an epilog and a handler, with one epilog in the header, and with numbers in a
/// second word; then one that is packed, one whose record has another version, and one whose codes lie outside.
#[test]
fn records() {
    let mut file = file_for([0x64, 0xaa], 48);
    let codes = [0xe1, 0x81, 0xe4, 0xe3];
    let at = |place: u32| SECTION + place;
    let functions = [
        [0x1000, at(0x40)],
        [0x1010, at(0x50)],
        [0x1020, at(0x58)],
        [0x1030, 0x2d],
        [0x1040, at(0x6c)],
        [0x1050, at(0x74)],
    ];
    put(&mut file, PLACE, &words(functions.as_flattened()));
    put(&mut file, PLACE + 0x40, &words(&[4 | 1 << 20 | 1 << 22 | 1 << 27, 0x0040_0003]));
    put(&mut file, PLACE + 0x48, &codes);
    put(&mut file, PLACE + 0x50, &words(&[5 | 1 << 21 | 2 << 22 | 1 << 27]));
    put(&mut file, PLACE + 0x54, &codes);
    put(&mut file, PLACE + 0x58, &words(&[6, 2 | 1 << 16, 0x0040_0003, 0x0040_0005]));
    put(&mut file, PLACE + 0x68, &codes);
    put(&mut file, PLACE + 0x6c, &words(&[7 | 1 << 18 | 1 << 21 | 1 << 27]));
    put(&mut file, PLACE + 0x74, &words(&[8 | 1 << 21 | 3 << 27]));
    let (image, functions) = Image::open(&file).unwrap();
    let of = |i: usize| lines(&image, &functions[8 * i..8 * i + 8]);
    for (i, init) in ["1000 10", "1010 14", "1020 18"].into_iter().enumerate() {
        let first =
            format!("STACK CFI INIT {init} .cfa: .sp 16 + .x29: .cfa -16 + ^ .x30: .cfa -8 + ^ .ra: .cfa -8 + ^");
        let later = format!("STACK CFI      10{i}4 .cfa: .sp 16 +");
        assert_eq!(of(i).unwrap(), format!("{first}\n{later}\n"));
    }
    let why = [3, 4, 5].map(|i| of(i).unwrap_err().to_string());
    let outside = "its record lies outside of the file, or its version is not 0";
    assert_eq!(why, ["its unwind data are packed", outside, outside]);
}

#[test]
fn other_files() {
    for (at, byte) in
        [(HEADER, 0), (HEADER + 5, 0xab), (OPTIONAL + 1, 1), (0x3f, 1), (HEADER + 6, 9), (OPTIONAL + 137, 0x31)]
    {
        let mut file = file();
        put(&mut file, at, &[byte]);
        assert!(Image::open(&file).is_none(), "{at:#x}");
    }
    assert!(Image::open(&[]).is_none());
}
