//! Links the planner's static library. It is looked for in the folder VEZHDANUR_LIB_DIR (a relative
//! one counts from this package), and otherwise where the project builds it.

use std::env;
use std::path::PathBuf;

fn main() {
    let package = PathBuf::from(env::var_os("CARGO_MANIFEST_DIR").expect("cargo sets it"));
    let folder = env::var_os("VEZHDANUR_LIB_DIR").unwrap_or_else(|| "../target/staticlib".into());
    let folder = package.join(folder);
    let library = folder.join("libwindow.a");

    println!("cargo:rerun-if-env-changed=VEZHDANUR_LIB_DIR");
    println!("cargo:rerun-if-changed=build.rs");
    println!("cargo:rerun-if-changed={}", library.display());
    assert!(
        library.is_file(),
        "{} is missing: `./test host` builds it",
        library.display()
    );
    println!("cargo:rustc-link-search=native={}", folder.display());
    println!("cargo:rustc-link-lib=static=window");
}
