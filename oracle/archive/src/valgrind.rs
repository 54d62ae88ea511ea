//! Requests to valgrind from inside a program that it runs; without valgrind they do nothing.

use std::arch::asm;
use std::ffi::CStr;

fn tool(a: u8, b: u8) -> usize {
    usize::from(a) << 24 | usize::from(b) << 16
}

/// Valgrind knows these instructions, which leave every register as it was, and reads the six numbers at rax.
#[inline(always)]
fn request(code: usize, first: usize, second: usize) {
    let numbers = [code, first, second, 0, 0, 0];
    unsafe {
        asm!(
            "rol rdi, 3",
            "rol rdi, 13",
            "rol rdi, 61",
            "rol rdi, 51",
            "xchg rbx, rbx",
            in("rax") numbers.as_ptr(),
            inout("rdx") 0usize => _,
            options(nostack),
        );
    }
}

/// Writes callgrind's counts since the last time out under a label and begins again from nothing.
#[inline(always)]
pub fn count(label: &CStr) {
    request(tool(b'C', b'T') + 3, label.as_ptr() as usize, 0);
}

/// Memcheck takes the words for never written: that a decision rests on them is an error.
pub fn make_undefined(words: &[u32]) {
    request(tool(b'M', b'C') + 1, words.as_ptr() as usize, 4 * words.len());
}

pub fn make_defined(words: &[u32]) {
    request(tool(b'M', b'C') + 2, words.as_ptr() as usize, 4 * words.len());
}
