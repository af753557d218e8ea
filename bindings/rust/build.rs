//! Links the library through the layer that sets the floating point: libsedgepick.a of the folder that SEDGEPICK_LIB names; where that has liblibrary.a alone, as
//! the folder that `tools/archive library` writes to, libsedgepick.a is made of it by tools/shared, which needs a C compiler and binutils.

use std::path::{Path, PathBuf};
use std::process::Command;

const BARE: &str = "liblibrary.a";
const GUARDED: &str = "libsedgepick.a";

fn main() {
    let root = Path::new(env!("CARGO_MANIFEST_DIR")).join("../..");
    println!("cargo:rerun-if-env-changed=SEDGEPICK_LIB");
    for source in ["c", "include", "tools/shared"] {
        println!("cargo:rerun-if-changed={}", root.join(source).display());
    }
    let folder = std::env::var_os("SEDGEPICK_LIB")
        .map_or_else(|| root.join("target/staticlib"), PathBuf::from);
    let linked = if folder.join(GUARDED).is_file() {
        println!("cargo:rerun-if-changed={}", folder.join(GUARDED).display());
        folder
    } else {
        guarded(&root, &folder.join(BARE))
    };
    println!("cargo:rustc-link-search=native={}", linked.display());
    println!("cargo:rustc-link-lib=static=sedgepick");
}

/// The folder with libsedgepick.a, made of the bare archive.
fn guarded(root: &Path, archive: &Path) -> PathBuf {
    let out = PathBuf::from(std::env::var_os("OUT_DIR").expect("cargo sets OUT_DIR"));
    println!("cargo:rerun-if-changed={}", archive.display());
    if !archive.is_file() {
        println!("cargo:warning=no {}: write it by `tools/archive library`, or name in SEDGEPICK_LIB a folder that has it or {GUARDED}", archive.display());
        return out;
    }
    let made = Command::new(root.join("tools/shared"))
        .arg(archive)
        .arg(&out)
        .status();
    assert!(
        made.is_ok_and(|status| status.success()),
        "tools/shared makes no {GUARDED} of {}",
        archive.display()
    );
    out
}
