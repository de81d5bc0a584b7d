//! Finds the four source files and names them as modules of the host: byte for byte as they stand,
//! but that of quorumread.rs a copy is taken in which one branch is replaced (`src/rule.rs`), unless
//! the old rule is asked for.

#[path = "src/rule.rs"]
mod rule;

use std::path::{Path, PathBuf};
use std::{env, fs, process};

const MODULES: [&str; 4] = ["messages", "leadership", "durability", "quorumread"];

fn main() {
    println!("cargo::rerun-if-changed=build.rs");
    println!("cargo::rerun-if-changed=src/rule.rs");
    println!("cargo::rerun-if-env-changed=SUMMERSET_SRC");
    let folder = source_folder();
    let out = PathBuf::from(env::var_os("OUT_DIR").expect("cargo sets OUT_DIR"));
    let mut declarations = String::new();
    let mut paths = Vec::new();
    for module in MODULES {
        let mut path = source_file(&folder, module);
        println!("cargo::rerun-if-changed={path}");
        if module == "quorumread" && !rule::OLD_RULE {
            path = copy_with_the_new_branch(&path, &out);
        }
        declarations += &format!("#[allow(warnings)]\n#[path = {path:?}]\nmod {module};\n");
        paths.push(path);
    }
    declarations += "/// The four files, as a panic's place names them.\n";
    declarations += &format!("pub(crate) const SOURCE_FILES: [&str; 4] = {paths:?};\n");
    declarations += &format!("pub(crate) const SOURCE_MODULES: [&str; 4] = {MODULES:?};\n");
    fs::write(out.join("mods.rs"), declarations).expect("OUT_DIR can be written");
}

/// SUMMERSET_SRC, else shared/docs/src beside the repository.
fn source_folder() -> PathBuf {
    match env::var_os("SUMMERSET_SRC") {
        Some(folder) if !folder.is_empty() => PathBuf::from(folder),
        _ => {
            let here = PathBuf::from(env::var_os("CARGO_MANIFEST_DIR").expect("cargo sets it"));
            here.join("../../shared/docs/src")
        }
    }
}

fn source_file(folder: &Path, module: &str) -> String {
    let path = folder.join(format!("src--src--protocols--multipaxos--{module}.rs.txt"));
    match path.canonicalize() {
        Ok(found) => text_of(found),
        Err(error) => give_up(&format!(
            "{} cannot be read ({error}); the source files are looked for in shared/docs/src \
             beside the repository, or where SUMMERSET_SRC says",
            path.display()
        )),
    }
}

/// The copy's path; its lines have the numbers that they have in the file.
fn copy_with_the_new_branch(path: &str, out: &Path) -> String {
    let file =
        fs::read_to_string(path).unwrap_or_else(|error| give_up(&format!("{path}: {error}")));
    let copy =
        rule::first_value_kept(&file).unwrap_or_else(|wrong| give_up(&format!("{path}: {wrong}")));
    let to = out.join("quorumread.rs");
    fs::write(&to, copy).expect("OUT_DIR can be written");
    text_of(to)
}

fn text_of(path: PathBuf) -> String {
    let text = path.into_os_string().into_string();
    text.unwrap_or_else(|odd| give_up(&format!("the path {odd:?} is not UTF-8")))
}

fn give_up(message: &str) -> ! {
    println!("cargo::error={message}");
    process::exit(1)
}
