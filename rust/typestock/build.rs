// Links libtypestock_c.a: from the folder that TYPESTOCK_LIB_DIR names, else from crates/typestock_c/out.
use std::env;
use std::path::PathBuf;

fn main() {
    println!("cargo:rerun-if-env-changed=TYPESTOCK_LIB_DIR");
    let folder = match env::var_os("TYPESTOCK_LIB_DIR") {
        Some(named) => PathBuf::from(named),
        None => PathBuf::from(env::var_os("CARGO_MANIFEST_DIR").unwrap())
            .join("../../crates/typestock_c/out"),
    };
    let archive = folder.join("libtypestock_c.a");
    println!("cargo:rerun-if-changed={}", archive.display());
    assert!(
        archive.is_file(),
        "{} is not there: `rt lib` in crates/typestock_c writes it, or TYPESTOCK_LIB_DIR names another folder",
        archive.display()
    );
    println!("cargo:rustc-link-search=native={}", folder.display());
    println!("cargo:rustc-link-lib=static=typestock_c");
}
