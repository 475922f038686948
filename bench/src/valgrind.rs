//! What a program may ask of the valgrind that runs it. Without one it does nothing.
use std::ffi::CString;

// As in callgrind.h.
const CALLGRIND: u64 = (b'C' as u64) << 24 | (b'T' as u64) << 16;
const DUMP_STATS_AT: u64 = CALLGRIND + 3;

/// Writes what was counted since the last time into a file, under this name.
pub fn write_as(name: &str) {
    let name = CString::new(name).unwrap();
    let words = [DUMP_STATS_AT, name.as_ptr() as u64, 0, 0, 0, 0];
    #[cfg(target_arch = "x86_64")]
    unsafe {
        std::arch::asm!(
            "rol rdi, 3", "rol rdi, 13", "rol rdi, 61", "rol rdi, 51", "xchg rbx, rbx",
            inout("rdx") 0u64 => _, in("rax") words.as_ptr(), in("rdi") 0u64,
        );
    }
}
