//! With the feature `library` the judge is linked with the library's static archive, with `earlier` also with that of an
//! earlier commit, and linked again when one has changed.

use std::{env, path::Path};

fn main() {
    let directory = Path::new(env!("CARGO_MANIFEST_DIR")).join("../../target/staticlib");
    for (feature, archive) in [("LIBRARY", "exported"), ("EARLIER", "earlier")] {
        if env::var_os(format!("CARGO_FEATURE_{feature}")).is_some() {
            println!("cargo:rustc-link-search=native={}", directory.display());
            println!("cargo:rustc-link-lib=static={archive}");
            println!("cargo:rerun-if-changed={}", directory.join(format!("lib{archive}.a")).display());
        }
    }
}
