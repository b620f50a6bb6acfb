//! Links `libyopobrush.a`, which `.ci/build library` writes in the
//! repository, or one in the folder that `YOPOBRUSH_LIB_DIR` names.

use std::env;
use std::path::PathBuf;

fn main() {
    println!("cargo::rerun-if-env-changed=YOPOBRUSH_LIB_DIR");
    let folder = match env::var_os("YOPOBRUSH_LIB_DIR") {
        Some(folder) => PathBuf::from(folder),
        None => PathBuf::from(env!("CARGO_MANIFEST_DIR")).join("../target/staticlib"),
    };
    let library = folder.join("libyopobrush.a");
    println!("cargo::rerun-if-changed={}", library.display());
    if !library.is_file() {
        let library = library.display();
        println!("cargo::error=there is no {library}: run `.ci/build library` in the repository, or name the folder that has it by YOPOBRUSH_LIB_DIR");
    }
    println!("cargo::rustc-link-search=native={}", folder.display());
    println!("cargo::rustc-link-lib=static=yopobrush");
}
