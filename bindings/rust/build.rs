//! Finds libsysmem.a: in the folder `SYSMEM_LIB_DIR`, or in the `lib` of the prefix that this crate is
//! installed in, or where `rt lib` leaves it in the repository that this crate lies in. The
//! toolchain's `liblibc_c.a` is linked too where it lies beside it or in `RATTLE_KIT`/c; an installed
//! libsysmem.a has it within.
use std::env;
use std::path::{Path, PathBuf};

fn main() {
    println!("cargo:rerun-if-env-changed=SYSMEM_LIB_DIR");
    println!("cargo:rerun-if-env-changed=RATTLE_KIT");
    let here = PathBuf::from(env::var_os("CARGO_MANIFEST_DIR").unwrap());
    let folders = match env::var_os("SYSMEM_LIB_DIR") {
        Some(folder) => vec![PathBuf::from(folder)],
        None => ["../../../lib", "../../crates/sysmem/out"].iter().map(|f| here.join(f)).collect(),
    };
    let folder = match folders.iter().find(|folder| folder.join("libsysmem.a").exists()) {
        Some(folder) => folder,
        None => {
            println!("cargo:warning=no libsysmem.a in {folders:?}: set SYSMEM_LIB_DIR");
            &folders[0]
        }
    };
    println!("cargo:rerun-if-changed={}", folder.join("libsysmem.a").display());
    link(folder, "sysmem");
    let kit = env::var_os("RATTLE_KIT").map(|kit| Path::new(&kit).join("c"));
    for folder in [Some(folder.clone()), kit].into_iter().flatten() {
        if folder.join("liblibc_c.a").exists() {
            link(&folder, "libc_c");
            return;
        }
    }
}

fn link(folder: &Path, name: &str) {
    println!("cargo:rustc-link-search=native={}", folder.display());
    println!("cargo:rustc-link-lib=static={name}");
}
