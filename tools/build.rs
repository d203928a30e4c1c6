// Links the proved core, which `tools/library` writes; or a library of the same functions in the folder that
// HOLLUPAQ_LIBRARY names, as .ci/arm does to have them answered by another processor.
use std::env;
use std::path::{Path, PathBuf};

fn main() {
    println!("cargo:rerun-if-env-changed=HOLLUPAQ_LIBRARY");
    let folder = match env::var_os("HOLLUPAQ_LIBRARY") {
        Some(folder) => PathBuf::from(folder),
        None => Path::new(env!("CARGO_MANIFEST_DIR")).join("../target/staticlib"),
    };
    let library = folder.join("libhollupaq.a");
    println!("cargo:rerun-if-changed={}", library.display());
    if !library.exists() {
        panic!(
            "there is no {}: run `tools/library` first",
            library.display()
        );
    }
    println!("cargo:rustc-link-search=native={}", folder.display());
    println!("cargo:rustc-link-lib=static=hollupaq");
}
