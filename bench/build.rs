//! Links libengine_bench.a and libtypestock_c.a: from the folder that TYPESTOCK_LIB_DIR names, else each from
//! its crate's out/. The functions are aligned as align.ld says.
use std::env;
use std::path::{Path, PathBuf};

fn main() {
    let here = Path::new(env!("CARGO_MANIFEST_DIR"));
    println!("cargo:rerun-if-env-changed=TYPESTOCK_LIB_DIR");
    let named = env::var_os("TYPESTOCK_LIB_DIR").map(PathBuf::from);
    for library in ["engine_bench", "typestock_c"] {
        let folder = match &named {
            Some(folder) => folder.clone(),
            None => here.join(format!("../crates/{library}/out")),
        };
        println!("cargo:rustc-link-search=native={}", folder.display());
        let archive = folder.join(format!("lib{library}.a"));
        println!("cargo:rerun-if-changed={}", archive.display());
        println!("cargo:rustc-link-lib=static={library}");
    }
    let script = here.join("align.ld");
    println!("cargo:rerun-if-changed={}", script.display());
    println!("cargo:rustc-link-arg-bins=-Wl,-T,{}", script.display());
}
