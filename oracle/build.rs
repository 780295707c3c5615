//! Links the library where `CORBELRUSH_LIB` names its archive; without it the rules stand in.
use std::env;
use std::path::PathBuf;

fn main() {
    println!("cargo:rerun-if-env-changed=CORBELRUSH_LIB");
    println!("cargo:rerun-if-changed=build.rs");
    let Some(archive) = env::var_os("CORBELRUSH_LIB").filter(|name| !name.is_empty()).map(PathBuf::from) else {
        return;
    };
    let archive = archive.canonicalize().expect("CORBELRUSH_LIB names an archive");
    let file = archive.file_name().and_then(|name| name.to_str()).expect("a plain file name");
    let name = file.strip_prefix("lib").and_then(|name| name.strip_suffix(".a")).expect("libNAME.a");
    println!("cargo:rerun-if-changed={}", archive.display());
    println!("cargo:rustc-link-search=native={}", archive.parent().unwrap().display());
    println!("cargo:rustc-link-lib=static={name}");
    println!("cargo:rustc-cfg=linked");
}
