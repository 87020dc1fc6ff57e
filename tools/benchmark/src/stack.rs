//! How far down the stack a call goes: it runs on a stack of its own that was filled before.
use std::arch::asm;
use std::ffi::c_void;

const SIZE: usize = 1 << 18;
const FILL: u8 = 0xA5;

extern "C" fn enter(call: *mut c_void) {
    // SAFETY: `depth` gives the address of such a reference, which outlives the call.
    let call = unsafe { &mut *call.cast::<&mut dyn FnMut()>() };
    call();
}

/// The bytes that the call has used, those of `enter` with them.
pub fn depth(mut call: &mut dyn FnMut()) -> usize {
    let mut area = vec![FILL; SIZE];
    let top = (area.as_mut_ptr() as usize + SIZE) & !15;
    // SAFETY: the stack pointer is back where it was after the call; r12 is kept by the callee.
    unsafe {
        asm!(
            "xchg rsp, r12",
            "call {enter}",
            "mov rsp, r12",
            enter = in(reg) enter as *const () as usize,
            inout("r12") top => _,
            in("rdi") (&raw mut call).cast::<c_void>(),
            clobber_abi("C"),
        );
    }
    let start = area.as_ptr() as usize;
    let untouched = area.iter().take_while(|b| **b == FILL).count();
    top - (start + untouched)
}
