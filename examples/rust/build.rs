// Links with libsgb.a, which `make lib` leaves at the top of the repository, or with that of the folder SGB_LIB.
use std::path::Path;

fn main() {
    println!("cargo:rerun-if-env-changed=SGB_LIB");
    let folder = std::env::var("SGB_LIB").unwrap_or_else(|_| format!("{}/../..", env!("CARGO_MANIFEST_DIR")));
    let library = Path::new(&folder).join("libsgb.a");
    println!("cargo:rerun-if-changed={}", library.display());
    if !library.is_file() {
        let folder = Path::new(&folder).canonicalize().map_or(folder.clone(), |path| path.display().to_string());
        eprintln!("libsgb.a is not in {folder}");
        eprintln!("`make lib` leaves it at the top of the repository of sgb; SGB_LIB names another folder that has it");
        std::process::exit(1);
    }
    println!("cargo:rustc-link-search=native={folder}");
    println!("cargo:rustc-link-lib=static=sgb");
}
