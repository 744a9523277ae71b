//! Finds the static library: in the folder that TYPST_HTML_LIB names, or else in that of
//! bindings/build, in that of pkg-config, or where the linker looks by itself. Nothing needs it
//! before a program is linked, so documentation and packages are made without it.

use std::env::var;
use std::path::Path;
use std::process::Command;

const FOLDER: &str = "TYPST_HTML_LIB";

/// Returns the folder of an installed library, as pkg-config reports it.
fn installed() -> Option<String> {
    let words = ["--variable=libdir", "typst_html"];
    let output = Command::new("pkg-config").args(words).output().ok()?;
    let folder = String::from_utf8(output.stdout).ok()?.trim().to_owned();
    Some(folder).filter(|folder| output.status.success() && !folder.is_empty())
}

fn main() {
    println!("cargo:rerun-if-env-changed={FOLDER}");
    println!("cargo:rerun-if-env-changed=PKG_CONFIG_PATH");
    println!("cargo:rerun-if-changed=build.rs");
    // (a library that is not bundled is needed only when a program is linked)
    println!("cargo:rustc-link-lib=static:-bundle=typst_html");
    let built = format!("{}/../out/lib", env!("CARGO_MANIFEST_DIR"));
    let is_built = Path::new(&built).join("libtypst_html.a").exists();
    let folder = var(FOLDER)
        .ok()
        .or(is_built.then_some(built))
        .or_else(installed);
    match folder {
        Some(folder) => {
            println!("cargo:rustc-link-search=native={folder}");
            println!("cargo:rerun-if-changed={folder}/libtypst_html.a");
        }
        None => println!("cargo:warning=no libtypst_html.a is found, without which nothing is linked: {FOLDER} names its folder"),
    }
}
