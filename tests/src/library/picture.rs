//! The functions of the C interface on pictures.

use imurraqi::ffi;

use crate::card::SIZE;
use crate::guarded::Guarded;

use super::entry::Entry;
use super::memory::Memory;

/// Lent bytes lie among guards and must be left as they are.
pub type PpmExport = fn(&mut Guarded<u8>, u8, &mut Guarded<u8>, &mut Guarded<u8>) -> i64;
pub type PpmExportLen = fn(&mut Guarded<u8>, u8) -> i64;
pub type PpmImport = fn(&mut Guarded<u8>, u64, u8, &mut Imported) -> i64;
pub type PpmImportLen = fn(&mut Guarded<u8>) -> i64;

/// The memory that an import fills.
#[derive(Clone, PartialEq)]
pub struct Imported {
    pub card: Guarded<u8>,
    pub packed: Guarded<u8>,
}

impl Imported {
    /// Room for a card, and for so many bytes of points.
    pub fn new(packed: usize) -> Imported {
        Imported::with(SIZE, packed)
    }

    pub fn with(card: usize, packed: usize) -> Imported {
        Imported {
            card: Guarded::new(card),
            packed: Guarded::new(packed),
        }
    }
}

pub fn ppm_export<M: Memory>(
    card: &mut Guarded<u8>,
    edition: u8,
    packed: &mut Guarded<u8>,
    out: &mut Guarded<u8>,
) -> i64 {
    let mut memory = M::of(Entry::PpmExport);
    // SAFETY: the pointers are to as many bytes as the lengths say, and nothing else
    // uses them.
    let answer = unsafe {
        ffi::imurraqi_ppm_export(
            memory.kept(card.whole()),
            card.length(),
            edition,
            memory.kept(packed.whole()),
            packed.length(),
            memory.output(out.whole()),
            out.length(),
        )
    };
    memory.answered(answer)
}

pub fn ppm_export_len<M: Memory>(card: &mut Guarded<u8>, edition: u8) -> i64 {
    let mut memory = M::of(Entry::PpmExportLen);
    let bytes = memory.kept(card.whole());
    // SAFETY: as for `ppm_export`.
    memory.answered(unsafe { ffi::imurraqi_ppm_export_len(bytes, card.length(), edition) })
}

pub fn ppm_import<M: Memory>(
    ppm: &mut Guarded<u8>,
    item: u64,
    primaries: u8,
    made: &mut Imported,
) -> i64 {
    let mut memory = M::of(Entry::PpmImport);
    // SAFETY: as for `ppm_export`.
    let answer = unsafe {
        ffi::imurraqi_ppm_import(
            memory.kept(ppm.whole()),
            ppm.length(),
            item,
            primaries,
            memory.output(made.card.whole()),
            made.card.length(),
            memory.output(made.packed.whole()),
            made.packed.length(),
        )
    };
    memory.answered(answer)
}

pub fn ppm_import_len<M: Memory>(ppm: &mut Guarded<u8>) -> i64 {
    let mut memory = M::of(Entry::PpmImportLen);
    let bytes = memory.kept(ppm.whole());
    // SAFETY: as for `ppm_export`.
    memory.answered(unsafe { ffi::imurraqi_ppm_import_len(bytes, ppm.length()) })
}
