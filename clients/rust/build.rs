//! Links libcc.a: of the folder that CC_LIB names, or of build/ in the sources, where `make lib` leaves it, or of the place
//! that pkg-config knows, or of the linker's own folders.
use std::path::Path;
use std::process::Command;

/// The folder of an installed library, if pkg-config is here and knows it.
fn installed() -> Option<String> {
    let told = Command::new("pkg-config").args(["--variable=libdir", "cc"]).output().ok()?;
    let folder = String::from_utf8(told.stdout).ok()?.trim().to_string();
    (told.status.success() && !folder.is_empty()).then_some(folder)
}

fn main() {
    println!("cargo:rerun-if-env-changed=CC_LIB");
    println!("cargo:rerun-if-env-changed=PKG_CONFIG_PATH");
    let sources = format!("{}/../../build", env!("CARGO_MANIFEST_DIR"));
    let built = Path::new(&sources).join("libcc.a").is_file().then_some(sources);
    if let Some(folder) = std::env::var("CC_LIB").ok().or(built).or_else(installed) {
        println!("cargo:rustc-link-search=native={folder}");
    }
    println!("cargo:rustc-link-lib=static=cc");
}
