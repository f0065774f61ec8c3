//! A stack of one's own that is painted, so that it can be seen how far down it
//! was written. For processors of the x86-64 kind.

use std::arch::asm;
use std::hint::black_box;

const SIZE: usize = 1 << 18;
const PAINT: u8 = 0xa5;

/// The bytes of stack that work takes, those for calling the work left out.
pub fn taken(work: &mut dyn FnMut()) -> usize {
    depth(work) - depth(&mut || ())
}

/// How far down a painted stack was written.
fn depth(mut work: &mut dyn FnMut()) -> usize {
    let mut stack = vec![PAINT; SIZE];
    let top = stack.as_mut_ptr_range().end as usize & !15;
    // SAFETY: the new stack is ours, large and aligned as a stack is; `enter`
    // has the C calling convention, and the old stack is taken up again.
    unsafe {
        asm!(
            "xchg rsp, r12",
            "call {enter}",
            "mov rsp, r12",
            inout("r12") top => _,
            enter = sym enter,
            inout("rdi") &raw mut work => _,
            clobber_abi("C"),
        );
    }
    let untouched = black_box(&stack).iter().take_while(|byte| **byte == PAINT);
    top - stack.as_ptr() as usize - untouched.count()
}

/// Does the work on the stack that it is called on.
extern "C" fn enter(work: &mut &mut dyn FnMut()) {
    work();
}
