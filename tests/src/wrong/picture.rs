//! Mistakes in pictures.

use crate::library::picture::{PpmExport, PpmExportLen, PpmImport, PpmImportLen};
use crate::library::Library;

use super::{Wrong, REFERENCE};

pub mod by_netpbm;
pub mod card_made;
pub mod codes;
pub mod export_refusals;
pub mod files;
pub mod groups;
pub mod headers;
pub mod import_refusals;
pub mod lengths;
pub mod memory;
pub mod whole;

const fn exports(mistake: &'static str, ppm_export: PpmExport) -> Wrong {
    let library = Library {
        ppm_export,
        ..REFERENCE
    };
    (mistake, library)
}

const fn tells_file(mistake: &'static str, ppm_export_len: PpmExportLen) -> Wrong {
    let library = Library {
        ppm_export_len,
        ..REFERENCE
    };
    (mistake, library)
}

const fn imports(mistake: &'static str, ppm_import: PpmImport) -> Wrong {
    let library = Library {
        ppm_import,
        ..REFERENCE
    };
    (mistake, library)
}

const fn tells_points(mistake: &'static str, ppm_import_len: PpmImportLen) -> Wrong {
    let library = Library {
        ppm_import_len,
        ..REFERENCE
    };
    (mistake, library)
}
