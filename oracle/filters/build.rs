//! Copies the filters of vello_cpu to cargo's own folder, once as they are and once for each mend,
//! and writes the module that holds all of these variants. The text itself is never stored here.
mod patches;

use patches::{Edit, CLASSES, EDITS};
use std::path::{Path, PathBuf};
use std::{env, fs};

const MODULES: [&str; 3] = ["gaussian_blur.rs", "shift.rs", "drop_shadow.rs"];

/// The folder that holds the crate's src/: `VELLO_SRC`, or the usual place beside the repository.
fn source() -> Option<PathBuf> {
    let named = env::var_os("VELLO_SRC").filter(|name| !name.is_empty()).map(PathBuf::from);
    let beside = PathBuf::from(env::var_os("CARGO_MANIFEST_DIR").unwrap()).join("../../../shared/docs/src");
    let folder = named.unwrap_or(beside).join("src/filter");
    folder.join("context.rs").is_file().then_some(folder)
}

/// `text` with the edits of one file applied, each exactly once.
fn mended(mut text: String, file: &str, wanted: &dyn Fn(&Edit) -> bool) -> String {
    for edit in EDITS.iter().filter(|e| e.file == file && wanted(e)) {
        let found = text.matches(edit.old).count();
        assert_eq!(found, 1, "{} in {file} must occur exactly once: {}", edit.class, edit.old);
        text = text.replacen(edit.old, edit.new, 1);
    }
    text
}

/// Writes one variant's files and answers the module that holds them.
fn variant(from: &Path, out: &Path, name: &str, classes: &[&str]) -> String {
    let folder = out.join(name);
    fs::create_dir_all(&folder).unwrap();
    let mut text = format!(
        "#[allow(dead_code, clippy::all)]\npub mod {name} {{\n    entries!(\"{name}\", [{}]);\n",
        classes.join(", ")
    );
    for file in MODULES {
        let path = from.join(file);
        println!("cargo:rerun-if-changed={}", path.display());
        let published = fs::read_to_string(&path).unwrap();
        let copy = folder.join(file);
        fs::write(&copy, mended(published, file, &|e| classes.contains(&e.class))).unwrap();
        let module = file.trim_end_matches(".rs");
        text += &format!("    #[path = {copy:?}]\n    pub(crate) mod {module};\n");
    }
    text + "}\n"
}

/// The module of all variants: as published, each class mended alone, all mended.
fn variants(from: &Path, out: &Path) -> String {
    let context = out.join("context.rs");
    fs::write(&context, fs::read_to_string(from.join("context.rs")).unwrap()).unwrap();
    let mut text =
        format!("#[allow(dead_code, clippy::all)]\npub mod filter {{\n    #[path = {context:?}]\n    pub(crate) mod context;\n}}\n");
    let mut names = vec!["published".to_string(), "mended".to_string()];
    text += &variant(from, out, "published", &[]);
    text += &variant(from, out, "mended", &CLASSES);
    for class in CLASSES {
        let name = format!("mended_{}", class.to_lowercase());
        text += &variant(from, out, &name, &[class]);
        names.push(name);
    }
    let table: String = names.iter().map(|n| format!("&{n}::FILTERS, ")).collect();
    text + &format!("pub static VARIANTS: &[&Filters] = &[{table}];\n")
}

fn main() {
    println!("cargo:rerun-if-env-changed=VELLO_SRC");
    println!("cargo:rerun-if-changed=build.rs");
    println!("cargo:rerun-if-changed=patches.rs");
    let Some(from) = source() else {
        println!("cargo:warning=vello_cpu 0.3.0 not found: set VELLO_SRC to the folder that holds its src/");
        return;
    };
    println!("cargo:rustc-cfg=vello");
    let out = PathBuf::from(env::var_os("OUT_DIR").unwrap());
    fs::write(out.join("variants.rs"), variants(&from, &out)).unwrap();
}
