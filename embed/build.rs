//! Links `libwsf.a`, which `rt lib` writes in `crates/wsf`. The environment's `WSF_LIB` names the
//! directory that has it; without that it is the repository's `crates/wsf/out`.

use std::path::PathBuf;

fn main() {
    println!("cargo::rerun-if-env-changed=WSF_LIB");
    let directory = std::env::var_os("WSF_LIB").map_or_else(of_repository, PathBuf::from);
    let directory = std::path::absolute(directory).expect("a path can be made absolute");
    let library = directory.join("libwsf.a");
    println!("cargo::rerun-if-changed={}", library.display());
    if !library.is_file() {
        println!(
            "cargo::error={} isn't there; `rt lib` in crates/wsf writes it",
            library.display()
        );
        return;
    }
    println!("cargo::rustc-link-search=native={}", directory.display());
    println!("cargo::rustc-link-lib=static=wsf");
}

fn of_repository() -> PathBuf {
    PathBuf::from(std::env::var_os("CARGO_MANIFEST_DIR").expect("cargo gives it"))
        .join("../crates/wsf/out")
}
