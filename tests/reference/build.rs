//! Links the library named in ZAGUYPO_LIB, an absolute path of the form `.../libNAME.a`.

use std::path::PathBuf;

fn main() {
    println!("cargo:rerun-if-changed=build.rs");
    println!("cargo:rerun-if-env-changed=ZAGUYPO_LIB");
    if std::env::var_os("CARGO_FEATURE_LINKED").is_none() {
        return;
    }
    let library = std::env::var_os("ZAGUYPO_LIB").map(PathBuf::from);
    let library = library.expect("feature `linked`: set ZAGUYPO_LIB to the absolute path of libzaguypo.a");
    let folder = library.parent().expect("a path with a folder");
    let stem = library.file_stem().and_then(|stem| stem.to_str()).expect("a file name");
    let name = stem.strip_prefix("lib").expect("a name of the form libNAME.a");
    assert!(library.is_file(), "no library at {}", library.display());
    println!("cargo:rerun-if-changed={}", library.display());
    println!("cargo:rustc-link-search=native={}", folder.display());
    println!("cargo:rustc-link-lib=static={name}");
}
