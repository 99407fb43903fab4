//! Links the judge into the tests if `liblistset.a` is found in the folder `LISTSET_LIB`, in the crate's folder `lib`,
//! or in the folder `lib` of a release.
use std::path::{Path, PathBuf};
use std::{env, fs};

fn main() {
    println!("cargo:rerun-if-env-changed=LISTSET_LIB");
    println!("cargo:rustc-check-cfg=cfg(linked)");
    let here = env::var("CARGO_MANIFEST_DIR").expect("cargo sets the folder of a crate");
    let of_release = Path::new(&here).join("../../../../../lib");
    let places = match env::var_os("LISTSET_LIB") {
        Some(given) => vec![PathBuf::from(given)],
        None => vec![Path::new(&here).join("lib"), of_release],
    };
    let found = places.iter().find(|it| it.join("liblistset.a").exists());
    assert!(found.is_some() || places.len() > 1, "LISTSET_LIB names {}, where no liblistset.a is", places[0].display());
    let found = match found {
        Some(it) => it,
        None => return,
    };
    let library = found.join("liblistset.a");
    let is_new = fs::read(&library).unwrap_or_default().windows(18).any(|it| it == b"listset_judge_from");
    assert!(is_new, "{} has no function listset_judge_from: take a newer one", library.display());
    println!("cargo:rerun-if-changed={}", library.display());
    println!("cargo:rustc-link-search=native={}", found.display());
    println!("cargo:rustc-link-lib=static=listset");
    println!("cargo:rustc-cfg=linked");
}
