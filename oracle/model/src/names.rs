//! Register names: the six tables of the source and Microsoft's x64 numbering.

use std::sync::OnceLock;

/// PE x64: 0 to 15.
pub const PE_X64: [&str; 16] = [
    "$rax", "$rcx", "$rdx", "$rbx", "$rsp", "$rbp", "$rsi", "$rdi", "$r8", "$r9", "$r10", "$r11", "$r12",
    "$r13", "$r14", "$r15",
];

/// One stretch of a table: names by themselves, a prefix with numbers from .. to, or entries without a name.
enum Part {
    Names(&'static str),
    Numbered(&'static str, u32, u32),
    Empty(usize),
}
use Part::{Empty, Names, Numbered};

const I386: &[Part] = &[
    Names("$eax $ecx $edx $ebx $esp $ebp $esi $edi $eip $eflags $unused1"),
    Numbered("$st", 0, 7),
    Names("$unused2 $unused3"),
    Numbered("$xmm", 0, 7),
    Numbered("$mm", 0, 7),
    Names("$fcw $fsw $mxcsr $es $cs $ss $ds $fs $gs $unused4 $unused5 $tr $ldtr"),
];

const X86_64: &[Part] = &[
    Names("$rax $rdx $rcx $rbx $rsi $rdi $rbp $rsp"),
    Numbered("$r", 8, 15),
    Names("$rip"),
    Numbered("$xmm", 0, 15),
    Numbered("$st", 0, 7),
    Numbered("$mm", 0, 7),
    Names("$rflags $es $cs $ss $ds $fs $gs $unused1 $unused2 $fs.base $gs.base $unused3 $unused4"),
    Names("$tr $ldtr $mxcsr $fcw $fsw"),
];

const ARM: &[Part] = &[
    Numbered("r", 0, 12),
    Names("sp lr pc"),
    Numbered("f", 0, 7),
    Names("fps cpsr"),
    Empty(38),
    Numbered("s", 0, 31),
    Numbered("f", 0, 7),
];

const ARM64: &[Part] = &[Numbered("x", 0, 30), Names("sp"), Empty(32), Numbered("v", 0, 31)];

const PPC: &[Part] = &[
    Numbered("r", 0, 31),
    Numbered("f", 0, 31),
    Empty(1),
    Names("lr ctr"),
    Empty(1),
    Numbered("cr", 0, 7),
    Names("xer"),
    Numbered("vr", 0, 31),
    Empty(1),
    Names("vscr"),
    Empty(3),
    Names("tfhar tfiar texasr"),
];

const MIPS: &[Part] = &[
    Names("$zero $at $v0 $v1"),
    Numbered("$a", 0, 3),
    Numbered("$t", 0, 7),
    Numbered("$s", 0, 7),
    Names("$t8 $t9 $k0 $k1 $gp $sp $fp $ra $lo $hi $pc $f0"),
    Numbered("$f", 2, 31),
    Names("$fcsr $fir"),
];

impl Part {
    fn len(&self) -> usize {
        match self {
            Names(names) => names.split(' ').count(),
            Numbered(_, from, to) => (to - from + 1) as usize,
            Empty(n) => *n,
        }
    }

    fn name(&self, i: usize) -> Option<String> {
        match self {
            Names(names) => names.split(' ').nth(i).map(String::from),
            Numbered(prefix, from, _) => Some(format!("{prefix}{}", *from as usize + i)),
            Empty(_) => None,
        }
    }
}

type Table = Vec<Option<String>>;

/// The name of a register of a family, numbered as `CpuFamily`.
pub fn name_of(family: u32, register: u16) -> Option<&'static str> {
    static TABLES: OnceLock<Vec<Table>> = OnceLock::new();
    let tables = TABLES.get_or_init(|| (0..=10).map(table_of).collect());
    tables.get(family as usize)?.get(usize::from(register))?.as_deref()
}

fn table_of(family: u32) -> Table {
    let parts = match family {
        1 => I386,
        2 => X86_64,
        3 => ARM,
        4 | 9 => ARM64,
        5 | 6 => PPC,
        7 | 8 => MIPS,
        _ => &[],
    };
    parts.iter().flat_map(|part| (0..part.len()).map(|i| part.name(i))).collect()
}
