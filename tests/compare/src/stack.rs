//! A stack of a fixed size for the library's calls, with a page below it that must not be touched.

use std::arch::asm;
use std::ffi::c_void;

const PAGE: usize = 4_096;
const UNTOUCHED: u8 = 0xc7;
const NO_ACCESS: i32 = 0;
const READ_WRITE: i32 = 3;
const PRIVATE_ANONYMOUS: i32 = 0x22;

extern "C" {
    fn mmap(address: *mut c_void, length: usize, protection: i32, flags: i32, file: i32, offset: i64) -> *mut c_void;
    fn mprotect(address: *mut c_void, length: usize, protection: i32) -> i32;
}

pub struct Stack {
    base: *mut u8,
    size: usize,
}

extern "C" fn invoke<F: FnMut()>(closure: *mut c_void) {
    // Given by `call` below.
    unsafe { (*(closure as *mut F))() }
}

impl Stack {
    /// `size` is a number of whole pages.
    pub fn new(size: usize) -> Stack {
        assert_eq!(size % PAGE, 0);
        unsafe {
            let below = mmap(std::ptr::null_mut(), size + PAGE, READ_WRITE, PRIVATE_ANONYMOUS, -1, 0) as *mut u8;
            assert!(below as isize != -1, "no memory for a stack");
            assert_eq!(mprotect(below as *mut c_void, PAGE, NO_ACCESS), 0);
            let base = below.add(PAGE);
            std::slice::from_raw_parts_mut(base, size).fill(UNTOUCHED);
            Stack { base, size }
        }
    }

    /// Calls `f` with the stack pointer at the top of this stack. A call that needs more dies by a fault.
    pub fn call<F: FnMut()>(&self, mut f: F) {
        unsafe {
            let top = self.base.add(self.size);
            asm!(
                "xchg rsp, r12",
                "call {invoke}",
                "mov rsp, r12",
                invoke = in(reg) invoke::<F> as extern "C" fn(*mut c_void),
                inout("r12") top => _,
                in("rdi") &mut f as *mut F as *mut c_void,
                clobber_abi("C"),
            );
        }
    }

    /// The most bytes that any call has used so far.
    pub fn used(&self) -> usize {
        let bytes = unsafe { std::slice::from_raw_parts(self.base, self.size) };
        self.size - bytes.iter().take_while(|byte| **byte == UNTOUCHED).count()
    }
}
