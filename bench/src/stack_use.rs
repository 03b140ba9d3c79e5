//! How many bytes of stack a call uses: it runs on a stack of its own that holds a
//! pattern, and the lowest byte that it changes is looked for.

use std::arch::asm;
use std::hint::black_box;

/// The most that any entry may use, and one that exports or imports a picture.
pub const LIMIT: usize = 2048;
pub const PICTURE_LIMIT: usize = 4096;

const SIZE: usize = 1 << 18;

type Call<'a> = &'a mut dyn FnMut();

/// The bytes used, the call itself and its few frames of this program included.
/// With two patterns, as the lowest byte may be set to what it was.
pub fn bytes(call: Call) -> usize {
    let used = [0xa5, 0x5a].map(|pattern| bytes_of(call, pattern));
    used[0].max(used[1])
}

/// The most that an entry may use.
pub fn limit(entry: &str) -> usize {
    match entry {
        "ppm_export" | "ppm_import" => PICTURE_LIMIT,
        _ => LIMIT,
    }
}

/// Whether a call that fills more than the limits is seen to.
pub fn is_seen() -> bool {
    const MORE: usize = PICTURE_LIMIT + 1;
    let used = bytes(&mut || {
        black_box([1u8; MORE]);
    });
    (MORE..2 * MORE + 1024).contains(&used)
}

fn bytes_of(mut call: Call, pattern: u8) -> usize {
    let mut stack = vec![pattern; SIZE];
    let end = stack.as_mut_ptr_range().end;
    let unused = end as usize % 16;
    let top = end.wrapping_sub(unused);
    // SAFETY: the stack has more room than any entry needs, nothing else uses it,
    // and nothing that is called unwinds.
    unsafe { run_on(top, &mut call) };
    let untouched = stack.iter().take_while(|byte| **byte == pattern).count();
    SIZE - unused - untouched
}

/// Runs a call with the stack pointer at the top of another stack.
unsafe fn run_on(top: *mut u8, call: &mut Call) {
    asm!(
        "mov r12, rsp",
        "mov rsp, {top}",
        "call {run}",
        "mov rsp, r12",
        top = in(reg) top,
        run = sym run,
        in("rdi") call,
        out("r12") _,
        clobber_abi("C"),
    );
}

extern "C" fn run(call: &mut Call) {
    call();
}
