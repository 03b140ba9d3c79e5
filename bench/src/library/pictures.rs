//! Pictures.

use imurraqi::ffi;

pub fn export(card: &[u8], edition: u8, packed: &[u8], out: &mut [u8]) -> i64 {
    // SAFETY: the pointers are to as many bytes as the lengths say, and nothing else uses
    // the output.
    unsafe {
        ffi::imurraqi_ppm_export(
            card.as_ptr(),
            card.len(),
            edition,
            packed.as_ptr(),
            packed.len(),
            out.as_mut_ptr(),
            out.len(),
        )
    }
}

pub fn export_len(card: &[u8], edition: u8) -> i64 {
    // SAFETY: as for `export`.
    unsafe { ffi::imurraqi_ppm_export_len(card.as_ptr(), card.len(), edition) }
}

pub fn import(ppm: &[u8], item: u64, primaries: u8, card: &mut [u8], packed: &mut [u8]) -> i64 {
    // SAFETY: as for `export`.
    unsafe {
        ffi::imurraqi_ppm_import(
            ppm.as_ptr(),
            ppm.len(),
            item,
            primaries,
            card.as_mut_ptr(),
            card.len(),
            packed.as_mut_ptr(),
            packed.len(),
        )
    }
}

pub fn import_len(ppm: &[u8]) -> i64 {
    // SAFETY: as for `export`.
    unsafe { ffi::imurraqi_ppm_import_len(ppm.as_ptr(), ppm.len()) }
}
