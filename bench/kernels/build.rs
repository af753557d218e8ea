//! Links the static library that `tools/archive kernels` writes, and takes the patched Rust's metrics, which are private there, out of its text.
//! `KERNELS_BEFORE` may name an earlier such library, to be timed beside it: it is linked under other names.

use std::path::Path;
use std::process::Command;
use std::{env, fs};

/// The text of a function of the patched Rust, up to the brace that closes it.
fn function<'a>(text: &'a str, name: &str) -> &'a str {
    let start = ["\nfn ", "\npub fn ", "\npub(crate) fn "]
        .iter()
        .find_map(|before| text.find(&format!("{before}{name}(")))
        .unwrap_or_else(|| panic!("no function {name}"));
    let length = text[start..].find("\n}\n").expect("the function's end");
    &text[start..start + length + 3]
}

/// Links an earlier library, its functions' names with `before` in place of `sedgepick`.
fn link_before(archive: &str, out: &Path) {
    println!("cargo:rerun-if-changed={archive}");
    let names = ["sqrt", "quad_score"].map(|n| format!("--redefine-sym=sedgepick_{n}=before_{n}"));
    let done = Command::new("objcopy")
        .args(names)
        .arg(archive)
        .arg(out.join("libbefore.a"))
        .status()
        .expect("objcopy");
    assert!(done.success(), "objcopy");
    println!("cargo:rustc-link-search=native={}", out.display());
    println!("cargo:rustc-link-lib=static=before");
    println!("cargo:rustc-cfg=before");
}

fn main() {
    let here = Path::new(env!("CARGO_MANIFEST_DIR"));
    let source = here.join("../../reference/src/patched.rs");
    println!("cargo:rerun-if-changed={}", source.display());
    let text = fs::read_to_string(&source).expect("the patched Rust");
    let parts = ["cross", "quad_metrics", "min_scaled_jacobian"].map(|name| function(&text, name));
    let out = env::var_os("OUT_DIR").expect("a folder for what is made");
    let out = Path::new(&out);
    fs::write(out.join("metrics.rs"), parts.concat()).expect("a file there");

    let folder = here.join("../../target/staticlib");
    let archive = folder.join("libkernels.a");
    println!("cargo:rerun-if-changed={}", archive.display());
    if !archive.is_file() {
        println!(
            "cargo:warning=no {}: write it by `tools/archive kernels`",
            archive.display()
        );
    }
    println!("cargo:rustc-link-search=native={}", folder.display());
    println!("cargo:rustc-link-lib=static=kernels");

    println!("cargo:rustc-check-cfg=cfg(before)");
    println!("cargo:rerun-if-env-changed=KERNELS_BEFORE");
    if let Ok(before) = env::var("KERNELS_BEFORE") {
        link_before(&before, out);
    }
}
