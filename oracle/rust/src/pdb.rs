//! PDB bodies. The Rust asks once for the string table of all frames, so it runs twice, with a table and without,
//! and each frame's lines are taken from the run that its body asks for.

use crate::symbolic_cfi::AsciiCfiWriter;
use crate::Answer;
use std::cell::RefCell;
use std::io::{self, Write};
use std::marker::PhantomData;
use std::ops::Range;
use std::rc::Rc;
use symbolic_debuginfo::pdb::pdb::{Frame, FrameData, FrameType, Pdb, PdbInternalRva, Rva, StringRef};
use symbolic_debuginfo::pdb::{Locked, PdbObject};
use symbolic_debuginfo::Object;

pub fn answer(bodies: &[&[u32]]) -> Answer {
    let frames: Rc<Vec<Frame>> = Rc::new(bodies.iter().map(|body| frame(body)).collect());
    let (with, without) = (lines(&frames, true), lines(&frames, false));
    let mut text = Vec::new();
    for (i, body) in bodies.iter().enumerate() {
        text.extend(if body[11] == 1 { &with[i] } else { &without[i] });
    }
    Answer { text, ..Answer::default() }
}

/// All frames as one object, for bodies that agree about the string table.
pub fn object(bodies: &[&[u32]]) -> Object<'static> {
    let has_table = bodies.first().is_some_and(|body| body[11] == 1);
    assert!(bodies.iter().all(|body| (body[11] == 1) == has_table));
    let frames = Rc::new(bodies.iter().map(|body| frame(body)).collect());
    Object::Pdb(PdbObject { inner: Locked(RefCell::new(pdb(frames, has_table, Rc::new(|| ())))) })
}

fn pdb(frames: Rc<Vec<Frame>>, has_table: bool, watch: Rc<dyn Fn()>) -> Pdb<'static> {
    Pdb { frames, has_table, cursor: Rc::default(), watch, lifetime: PhantomData }
}

/// A writer whose text can be looked at while it grows.
#[derive(Clone, Default)]
struct Shared(Rc<RefCell<Vec<u8>>>);

impl Write for Shared {
    fn write(&mut self, bytes: &[u8]) -> io::Result<usize> {
        self.0.borrow_mut().write(bytes)
    }

    fn flush(&mut self) -> io::Result<()> {
        Ok(())
    }
}

/// The lines of each frame.
fn lines(frames: &Rc<Vec<Frame>>, has_table: bool) -> Vec<Vec<u8>> {
    let text = Shared::default();
    let ends = Rc::new(RefCell::new(Vec::new()));
    let (watched, seen) = (text.clone(), ends.clone());
    let watch = Rc::new(move || seen.borrow_mut().push(watched.0.borrow().len()));
    let pdb = pdb(frames.clone(), has_table, watch);
    let object = Object::Pdb(PdbObject { inner: Locked(RefCell::new(pdb)) });
    let result = AsciiCfiWriter::new(text.clone()).process(&object);
    result.expect("the Rust translates every frame");
    let (text, ends) = (text.0.borrow(), ends.borrow());
    ends.windows(2).map(|two| text[two[0]..two[1]].to_vec()).collect()
}

fn frame(body: &[u32]) -> Frame {
    let (prologs, codes) = (body[12] as usize, body[13] as usize);
    let (prolog, rest) = body[15..].split_at(2 * prologs);
    let (code, program) = rest.split_at(2 * codes);
    let program: String = program.iter().map(|&c| c as u8 as char).collect();
    let data = FrameData {
        ty: frame_type(body[0]),
        code_start: PdbInternalRva(body[1]),
        code_size: body[2],
        prolog_size: body[3] as u16,
        params_size: body[4],
        saved_regs_size: body[5] as u16,
        locals_size: body[6],
        max_stack_size: (body[7] == 1).then_some(body[8]),
        uses_base_pointer: body[9] == 1,
        program: (body[10] == 1).then(|| StringRef(program.into())),
    };
    Frame { data, prolog: ranges(prolog), code: ranges(code) }
}

fn ranges(words: &[u32]) -> Vec<Range<Rva>> {
    words.chunks(2).map(|two| Rva(two[0])..Rva(two[1])).collect()
}

fn frame_type(word: u32) -> FrameType {
    match word {
        0 => FrameType::Fpo,
        1 => FrameType::Trap,
        2 => FrameType::Tss,
        3 => FrameType::Standard,
        _ => FrameType::FrameData,
    }
}
