//! With the feature `proved`, links the static library `libmodeurwan.a` that
//! stands in the folder named by `MODEURWAN_LIB_DIR`. The library is for x86-64;
//! elsewhere a peer serves it (`src/peer.rs`).

use std::env;

fn main() {
    println!("cargo:rerun-if-env-changed=MODEURWAN_LIB_DIR");
    let x86_64 = env::var("CARGO_CFG_TARGET_ARCH").is_ok_and(|arch| arch == "x86_64");
    if env::var_os("CARGO_FEATURE_PROVED").is_none() || !x86_64 {
        return;
    }
    let folder = env::var("MODEURWAN_LIB_DIR")
        .expect("the feature `proved` needs MODEURWAN_LIB_DIR, the folder of libmodeurwan.a");
    println!("cargo:rustc-link-search=native={folder}");
    println!("cargo:rustc-link-lib=static=modeurwan");
    println!("cargo:rerun-if-changed={folder}/libmodeurwan.a");
}
