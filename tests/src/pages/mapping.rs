//! Memory between pages that nobody may touch.

use std::ffi::{c_char, c_int, c_uint, c_void};
use std::fs::File;
use std::os::fd::{AsRawFd, FromRawFd};
use std::ptr;

/// The bytes of a mapping, and of the closed pages on each side of it. The
/// greatest line that is lent is of 65,537 points of three floats.
pub const SIZE: usize = 1 << 20;

/// One stretch of memory that is mapped twice. What is lent lies among closed
/// pages, and inputs cannot be written to there; the tests fill and look at it
/// elsewhere.
#[derive(Clone, Copy)]
pub struct Mapping {
    pub lent: *mut u8,
    pub own: *mut u8,
}

const CLOSED: c_int = 0;
const READABLE: c_int = 1;
const WRITABLE: c_int = 2;

const SHARED: c_int = 0x01;
const PRIVATE: c_int = 0x02;
const FIXED: c_int = 0x10;
const ANONYMOUS: c_int = 0x20;

extern "C" {
    fn memfd_create(name: *const c_char, flags: c_uint) -> c_int;

    fn mmap(
        address: *mut c_void,
        length: usize,
        protection: c_int,
        flags: c_int,
        file: c_int,
        offset: i64,
    ) -> *mut c_void;
}

impl Mapping {
    pub fn for_inputs() -> Mapping {
        Mapping::new(READABLE)
    }

    pub fn for_outputs() -> Mapping {
        Mapping::new(READABLE | WRITABLE)
    }

    /// It is kept for as long as the program runs.
    fn new(protection: c_int) -> Mapping {
        // SAFETY: the name ends with a zero byte.
        let file = unsafe { memfd_create(c"lent".as_ptr(), 0) };
        assert!(file >= 0, "memory that can be mapped twice");
        // SAFETY: the file was just opened, and nothing else closes it.
        let file = unsafe { File::from_raw_fd(file) };
        file.set_len(SIZE as u64).expect("memory of this size");
        let file = file.as_raw_fd();
        let anywhere = ptr::null_mut();
        // SAFETY: new mappings, of which the last takes the place of the middle of
        // the one before.
        unsafe {
            let own = mapped(anywhere, SIZE, READABLE | WRITABLE, SHARED, file);
            let around = mapped(anywhere, 3 * SIZE, CLOSED, PRIVATE | ANONYMOUS, -1);
            let middle = around.add(SIZE);
            let lent = mapped(middle, SIZE, protection, SHARED | FIXED, file);
            Mapping { lent, own }
        }
    }
}

unsafe fn mapped(
    address: *mut u8,
    length: usize,
    protection: c_int,
    flags: c_int,
    file: c_int,
) -> *mut u8 {
    let address = mmap(address.cast(), length, protection, flags, file, 0);
    assert!(address.addr() != usize::MAX, "memory that can be mapped");
    address.cast()
}
