//! Finds `liblistset.a` in the folder that the environment variable `LISTSET_LIB` names. If the variable is not set,
//! searches the crate's folder `lib`, and the folder `lib` of an installation by `foreign/build`.
use std::env;
use std::path::{Path, PathBuf};

fn main() {
    println!("cargo:rerun-if-env-changed=LISTSET_LIB");
    let here = env::var("CARGO_MANIFEST_DIR").expect("cargo sets the folder of a crate");
    let here = Path::new(&here);
    let places = match env::var_os("LISTSET_LIB") {
        Some(given) => vec![PathBuf::from(given)],
        None => vec![here.join("lib"), here.join("../out/lib"), here.join("../../../lib")],
    };
    let found = places.iter().find(|it| it.join("liblistset.a").exists());
    let found = found.unwrap_or_else(|| panic!("liblistset.a is in none of {places:?}: foreign/build makes it"));
    println!("cargo:rerun-if-changed={}", found.join("liblistset.a").display());
    println!("cargo:rustc-link-search=native={}", found.display());
    println!("cargo:rustc-link-lib=static=listset");
}
