//! How much stack a call takes: it runs on a stack of its own that is painted first, and the lowest byte that changed tells.
//! Counted with it are some hundred bytes of what calls it.

const SIZE: usize = 1 << 17;
const PAINT: u8 = 0xa5;

/// The bytes of stack that `call` changed.
#[cfg(target_arch = "x86_64")]
pub fn depth(mut call: impl FnMut()) -> usize {
    let mut stack = vec![PAINT; SIZE];
    let top = (stack.as_mut_ptr() as usize + SIZE) & !15;
    let mut call: &mut dyn FnMut() = &mut call;
    // SAFETY: the stack pointer is put back before anything else uses it; `run` keeps to the new stack, which is large enough.
    unsafe {
        std::arch::asm!(
            "mov r12, rsp",
            "mov rsp, rsi",
            "call {run}",
            "mov rsp, r12",
            run = sym run,
            in("rdi") &mut call,
            in("rsi") top,
            out("r12") _,
            clobber_abi("C"),
        );
    }
    let untouched = stack.iter().take_while(|byte| **byte == PAINT).count();
    SIZE - untouched
}

#[cfg(target_arch = "x86_64")]
extern "C" fn run(call: &mut &mut dyn FnMut()) {
    call();
}
