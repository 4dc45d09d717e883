//! With the feature `ours`, links libquorum.a from the folder that QUORUM_LIB_DIR names.

use std::env;

fn main() {
    println!("cargo::rerun-if-env-changed=QUORUM_LIB_DIR");
    if env::var_os("CARGO_FEATURE_OURS").is_none() {
        return;
    }
    let folder =
        env::var("QUORUM_LIB_DIR").expect("QUORUM_LIB_DIR names the folder of libquorum.a");
    println!("cargo::rerun-if-changed={folder}/libquorum.a");
    println!("cargo::rustc-link-search=native={folder}");
    println!("cargo::rustc-link-lib=static=quorum");
}
