//! Links the archive that `CORBELRUSH_LIB` names, else the one in the folder that pkg-config has for `corbelrush`.
use std::env;
use std::path::PathBuf;
use std::process::Command;

fn main() {
    println!("cargo:rerun-if-changed=build.rs");
    for name in ["CORBELRUSH_LIB", "PKG_CONFIG", "PKG_CONFIG_PATH"] {
        println!("cargo:rerun-if-env-changed={name}");
    }
    let named = env::var_os("CORBELRUSH_LIB").filter(|name| !name.is_empty()).map(PathBuf::from);
    let archive = named.or_else(installed).expect(
        "no library to link: CORBELRUSH_LIB names no libcorbelrush.a, and pkg-config knows no package corbelrush",
    );
    let archive = archive.canonicalize().unwrap_or_else(|error| panic!("{}: {error}", archive.display()));
    assert!(archive.ends_with("libcorbelrush.a"), "{} is no libcorbelrush.a", archive.display());
    println!("cargo:rerun-if-changed={}", archive.display());
    println!("cargo:rustc-link-search=native={}", archive.parent().expect("a file has a folder").display());
    println!("cargo:rustc-link-lib=static=corbelrush");
}

/// The archive of an installed library.
fn installed() -> Option<PathBuf> {
    let program = env::var_os("PKG_CONFIG").unwrap_or_else(|| "pkg-config".into());
    let output = Command::new(program).args(["--variable=libdir", "corbelrush"]).output().ok()?;
    let folder = String::from_utf8(output.stdout).ok()?;
    output.status.success().then(|| PathBuf::from(folder.trim()).join("libcorbelrush.a"))
}
