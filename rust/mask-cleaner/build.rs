//! Links the archive of the library: the one named by MASK_CLEANER_ARCHIVE, or the one that `tools/build capi` makes.

use std::path::{Path, PathBuf};

const VARIABLE: &str = "MASK_CLEANER_ARCHIVE";
const DEFAULT: &str = "../../target/staticlib/libcapi.a";

fn main() {
    println!("cargo:rerun-if-env-changed={VARIABLE}");
    let archive = archive();
    println!("cargo:rerun-if-changed={}", archive.display());
    let (folder, name) = parts(&archive).unwrap_or_else(|| {
        panic!(
            "{VARIABLE} must name a file lib*.a, not {}",
            archive.display()
        )
    });
    assert!(
        archive.is_file(),
        "no archive {}: run `tools/build capi` first, or set {VARIABLE}",
        archive.display()
    );
    println!("cargo:rustc-link-search=native={}", folder.display());
    println!("cargo:rustc-link-lib=static={name}");
}

fn archive() -> PathBuf {
    match std::env::var_os(VARIABLE) {
        Some(path) => PathBuf::from(path),
        None => Path::new(env!("CARGO_MANIFEST_DIR")).join(DEFAULT),
    }
}

/// The folder of `lib<name>.a`, and the name.
fn parts(archive: &Path) -> Option<(&Path, &str)> {
    let name = archive.file_name()?.to_str()?;
    let name = name.strip_prefix("lib")?.strip_suffix(".a")?;
    Some((archive.parent()?, name))
}
